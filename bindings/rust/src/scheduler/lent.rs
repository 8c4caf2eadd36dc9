//! What a call is lent for its answer, and how the answer is read.
use super::{Scheduler, SchedulerError};

pub const OUT_WORDS: usize = 4;
pub const RECORD_WORDS: usize = 24;
pub const IMAGE_BYTES: usize = 64;

/// The tags of an answer.
pub const NONE: u64 = 2;
pub const SATISFIED: u64 = 6;
pub const TIMEOUT: u64 = 7;
pub const BLOCKED: u64 = 8;
pub const RUN: u64 = 9;
pub const ADVANCE_TO: u64 = 10;
pub const DEADLOCKED: u64 = 11;
pub const FINISHED: u64 = 12;
pub const NO_POLICY: u64 = 17;

/// The refusal of a name that nothing has.
pub const UNKNOWN: u64 = 2;

pub type Result<T> = std::result::Result<T, SchedulerError>;
pub type Out = [u64; OUT_WORDS];
pub type Record = [u64; RECORD_WORDS];

impl Scheduler {
    /// The answer of a call that changes the words, of `N` words.
    pub(super) fn change<const N: usize>(
        &mut self,
        call: impl FnOnce(*mut u64, usize, *mut u64, usize) -> u64,
    ) -> Result<[u64; N]> {
        let mut out = [0; N];
        let number = call(
            self.words.as_mut_ptr(),
            self.words.len(),
            out.as_mut_ptr(),
            N,
        );
        answered(number, out)
    }

    /// The answer of a call that reads.
    pub(super) fn read<const N: usize>(
        &self,
        call: impl FnOnce(*const u64, usize, *mut u64, usize) -> u64,
    ) -> Result<[u64; N]> {
        let mut out = [0; N];
        let number = call(self.words.as_ptr(), self.words.len(), out.as_mut_ptr(), N);
        answered(number, out)
    }

    /// The answer of a call that nothing refuses but words out of form, which no call leaves.
    pub(super) fn always<const N: usize>(
        &self,
        call: impl FnOnce(*const u64, usize, *mut u64, usize) -> u64,
    ) -> [u64; N] {
        self.read(call).expect("words in form")
    }
}

fn answered<T>(number: u64, out: T) -> Result<T> {
    match number {
        0 => Ok(out),
        _ => Err(SchedulerError(number)),
    }
}

/// A number, or nothing where the tag says so.
pub fn some([tag, value, ..]: Out) -> Option<u64> {
    (tag != NONE).then_some(value)
}

pub fn flag([_, value, ..]: Out) -> bool {
    value != 0
}
