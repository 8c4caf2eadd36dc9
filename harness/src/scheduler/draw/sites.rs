//! Where timers and DPCs stand: places a size apart in one region, others across them, and bad ones.
use super::{Draw, EDGES};
use crate::random::Random;
use crate::scheduler::state::{State, dpc_size, timer_size};
use crate::scheduler::{Location, Span};
use emumee::pe::Architecture;
use emumee::scheduler::TimerBacking;

/// The bytes of the longest record, by which places are apart.
const STEP: u64 = 64;
const TOP_OF_X86: u64 = 1 << 32;

/// A region of places, of which the even ones are for timers and the odd ones for DPCs.
pub struct Sites {
    base: u64,
    places: u64,
}

#[derive(Clone, Copy, PartialEq, Eq)]
pub enum Kind {
    Timer,
    Dpc,
}

impl Kind {
    fn size(self, architecture: Architecture) -> u64 {
        match self {
            Self::Timer => timer_size(architecture),
            Self::Dpc => dpc_size(architecture),
        }
    }
}

impl Sites {
    /// A region for as many of each kind; some lie over the keys, of which `key` is one.
    pub fn new(random: &Random, each: u64, key: u64) -> Self {
        let places = 2 * each;
        let last = u64::MAX - 7 - STEP * places;
        let over_keys = key.saturating_sub(STEP * random.below(3)) & !7;
        let base = match random.below(16) {
            0 => TOP_OF_X86 - STEP * places,
            1 => 1 << 40,
            2 => last,
            3 | 4 => over_keys.clamp(8, last),
            _ => 1 << 20,
        };
        Self { base, places }
    }

    fn size(&self) -> u64 {
        STEP * self.places
    }

    /// Rising indices go through all places of a kind, in no order.
    pub fn nth(&self, kind: Kind, index: usize) -> u64 {
        let each = self.places / 2;
        let place = 2 * (index as u64 % each * super::STRIDE as u64 % each);
        self.base + STEP * (place + u64::from(kind == Kind::Dpc))
    }

    fn holds(&self, address: u64) -> bool {
        (self.base..self.base + self.size()).contains(&address)
    }
}

impl Draw<'_> {
    /// A location that is good by itself.
    pub(super) fn good_location(&self, kind: Kind, index: usize) -> Location {
        let address = self.sites.nth(kind, index);
        let architecture = self.architecture(address);
        Location {
            address,
            architecture,
            backing: self.good_backing(address, kind.size(architecture)),
        }
    }

    pub(super) fn location(&self, kind: Kind, state: &State) -> Location {
        let random = self.random;
        let address = self.site(kind, state);
        let architecture = self.architecture(address);
        let size = kind.size(architecture);
        let backing = match random.below(16) {
            0 => self.edge_backing(address, size),
            _ => self.good_backing(address, size),
        };
        Location {
            address,
            architecture,
            backing,
        }
    }

    fn architecture(&self, address: u64) -> Architecture {
        let one_in = if address < TOP_OF_X86 { 3 } else { 24 };
        match self.random.once_in(one_in) {
            true => Architecture::X86,
            false => Architecture::X64,
        }
    }

    /// Mostly a place of the kind; else one of the other kind, across two, not aligned, of another
    /// object, or an edge.
    pub(super) fn site(&self, kind: Kind, state: &State) -> u64 {
        let random = self.random;
        let index = random.below(self.sites.places) as usize;
        let address = self.sites.nth(kind, index);
        let other = match kind {
            Kind::Timer => Kind::Dpc,
            Kind::Dpc => Kind::Timer,
        };
        match random.below(48) {
            0..=2 => self.sites.nth(other, index),
            3 | 4 => address.wrapping_add(random.pick(&[8, 16, 24, 32, 40, 48, 56])),
            5 => address.wrapping_add(random.pick(&[1, 2, 4, 12, 20, 36, 44])),
            6 => address.wrapping_sub(random.pick(&[1, 4, 8, 24, 56, 64])),
            7 => random.near(self.object(state)),
            8 => self
                .object(state)
                .wrapping_add(random.pick(&[8, 16, 24, 48, 56])),
            9 => self.object(state).wrapping_sub(random.pick(&[32, 40, 64])),
            10 => random.pick(&[
                random.pick(&EDGES),
                TOP_OF_X86 - random.pick(&[8, 32, 36, 40, 44, 64, 72]),
                u64::MAX - random.pick(&[31, 32, 39, 40, 63, 64, 71, 127]),
            ]),
            _ => address,
        }
    }

    /// A key of an event or a mutex.
    fn object(&self, state: &State) -> u64 {
        match self.random.once_in(2) {
            true => self.event(state),
            false => self.mutex(state),
        }
    }

    /// One that holds the bytes, unless these end past the memory.
    fn good_backing(&self, address: u64, size: u64) -> TimerBacking {
        let random = self.random;
        let (base, whole) = match self.sites.holds(address) {
            true => (self.sites.base, self.sites.size()),
            false => (address, size),
        };
        match random.below(8) {
            0 => TimerBacking::Image {
                base: address,
                size,
            },
            1 => TimerBacking::NonpagedPool {
                base: address,
                requested: size,
                mapped: random.pick(&[size, size + 1, 4096, u64::MAX]),
            },
            2 | 3 => TimerBacking::NonpagedPool {
                base,
                requested: whole,
                mapped: whole + random.below(2),
            },
            _ => TimerBacking::Image { base, size: whole },
        }
    }

    /// One around the ends of the bytes, or of the memory.
    fn edge_backing(&self, address: u64, size: u64) -> TimerBacking {
        let random = self.random;
        let base = match random.below(3) {
            0 => random.near(address),
            1 => random.pick(&[0, 1, address / 2]),
            _ => address,
        };
        let needed = address.wrapping_add(size).wrapping_sub(base);
        let length = match random.below(4) {
            0 => random.pick(&[0, 1, u64::MAX - base, u64::MAX, base.wrapping_neg()]),
            _ => random.near(needed),
        };
        match random.below(2) {
            0 => TimerBacking::Image { base, size: length },
            _ => TimerBacking::NonpagedPool {
                base,
                requested: length,
                mapped: random.pick(&[random.near(length), random.near(length), 0, u64::MAX]),
            },
        }
    }

    /// Memory around a timer or a DPC, mostly of one known.
    pub(super) fn span(&self, state: &State) -> Span {
        let random = self.random;
        let (address, size) = self.record(state);
        let made = Span { address, size };
        match random.below(16) {
            0 => Span {
                address: random.near(address),
                ..made
            },
            1 => Span {
                size: random.near(size),
                ..made
            },
            2 => Span {
                address: random.near(address.wrapping_add(size)),
                size: 1 + random.below(size),
            },
            3 => Span {
                address: address.wrapping_sub(size),
                size: random.near(size),
            },
            4 => Span {
                size: random.pick(&[0, 1, STEP * 4, u64::MAX - address, u64::MAX]),
                ..made
            },
            5 => Span {
                address: self.sites.base,
                size: self.sites.size(),
            },
            6 => Span {
                address: random.pick(&EDGES),
                size: random.pick(&EDGES),
            },
            7 => Span {
                address: address.wrapping_add(random.below(size)),
                size: 1 + random.below(STEP * 2),
            },
            _ => made,
        }
    }

    /// The address and the bytes of a timer or a DPC; of a free place where there is none.
    fn record(&self, state: &State) -> (u64, u64) {
        let random = self.random;
        let idle = |count: usize| count > 0 && random.once_in(2);
        if idle(state.timers.len()) {
            let timer = random.pick(&state.timers);
            return (timer.address, timer_size(timer.architecture));
        }
        match self.below(state.dpcs.len()) {
            Some(index) => {
                let dpc = &state.dpcs[index];
                (dpc.address, dpc_size(dpc.architecture))
            }
            None => (self.site(Kind::Timer, state), STEP),
        }
    }
}
