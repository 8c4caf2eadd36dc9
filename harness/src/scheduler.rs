//! The scheduler: its limits and its calls.
pub mod answer;
pub mod bench;
mod call;
pub mod compare;
pub mod draw;
mod form;
pub mod original;
mod proved;
pub mod reference;
mod refusals;
mod room;
pub mod state;
mod view;
mod words;

pub use call::{Backing, Call, Location, Span};

/// How many threads, objects and DPCs there may be.
#[derive(Clone, Copy, Debug, PartialEq, Eq)]
pub struct Limits {
    pub threads: u64,
    pub objects: u64,
    pub dpcs: u64,
}

impl Limits {
    /// The original's own.
    pub const MOST: Self = Self::new(256, 4096, 4096);

    pub const fn new(threads: u64, objects: u64, dpcs: u64) -> Self {
        Self {
            threads,
            objects,
            dpcs,
        }
    }

    pub fn are_bad(self) -> bool {
        !(1..=Self::MOST.threads).contains(&self.threads)
            || self.objects > Self::MOST.objects
            || self.dpcs > Self::MOST.dpcs
    }

    /// The words that a scheduler of these limits needs, which are not bad.
    pub fn words(self) -> usize {
        (256 + 160 * self.threads + 32 * (self.objects + self.dpcs)) as usize
    }
}
