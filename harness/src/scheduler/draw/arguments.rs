//! Arguments around what the state holds, and edges.
use super::{Draw, EDGES, LAYOUT};
use crate::scheduler::state::State;
use crate::scheduler::{Backing, Limits};

impl Draw<'_> {
    pub(super) fn limits(&self, limits: Limits) -> Limits {
        let near = |limit: u64, most: u64| match self.random.below(8) {
            0 => self.random.near(limit),
            1 => self.random.pick(&[0, 1, most, most + 1, u64::MAX]),
            2 => self.random.number(),
            _ => limit,
        };
        Limits {
            threads: near(limits.threads, Limits::MOST.threads),
            objects: near(limits.objects, Limits::MOST.objects),
            dpcs: near(limits.dpcs, Limits::MOST.dpcs),
        }
    }

    pub(super) fn good_priority(&self) -> u64 {
        self.random.pick(&[1, 8, 8, 8, 9, 15, 31])
    }

    pub(super) fn priority(&self) -> u64 {
        match self.random.below(16) {
            0 => self.random.pick(&[0, 32, 255, 256, 264, 1 << 32, u64::MAX]),
            1 => self.random.below(34),
            _ => self.good_priority(),
        }
    }

    pub(super) fn irql(&self) -> u8 {
        self.random
            .pick(&[0, 0, 0, 0, 0, 0, 0, 1, 1, 1, 1, 1, 1, 2, 3, 255])
    }

    pub(super) fn thread(&self, state: &State) -> u64 {
        let threads = state.threads.len() as u64;
        match self.random.below(24) {
            0 => self.random.pick(&[0, threads + 1, 256, 257, u64::MAX]),
            _ => 1 + self.random.below(threads),
        }
    }

    pub(super) fn key(&self) -> u64 {
        match self.random.below(64) {
            0 => self.random.pick(&EDGES),
            1 => self.random.number(),
            _ => self.random.pick(&self.keys),
        }
    }

    /// Mostly the key of an event.
    pub(super) fn event(&self, state: &State) -> u64 {
        match self.random.below(8) {
            0 => self.key(),
            1..=3 => self.waited(state, 1).unwrap_or_else(|| self.key()),
            _ if state.events.is_empty() => self.key(),
            _ => self.random.pick(&state.events).key,
        }
    }

    /// Mostly the key of a mutex.
    pub(super) fn mutex(&self, state: &State) -> u64 {
        match self.random.below(8) {
            0 => self.key(),
            1..=3 => self.waited(state, 0).unwrap_or_else(|| self.key()),
            _ if state.mutexes.is_empty() => self.key(),
            _ => self.random.pick(&state.mutexes).0,
        }
    }

    /// Mostly the key of a mutex that the current thread owns.
    pub(super) fn own_mutex(&self, state: &State) -> u64 {
        let own = |(_, owner): &&(u64, Option<u64>)| owner.is_some() && *owner == state.current;
        let own: Vec<u64> = state.mutexes.iter().filter(own).map(|m| m.0).collect();
        if own.is_empty() || self.random.once_in(8) {
            return self.mutex(state);
        }
        self.random.pick(&own)
    }

    /// A key of the kind that some thread waits for.
    pub(super) fn waited(&self, state: &State, kind: u64) -> Option<u64> {
        let id = state.waiters.get(self.below(state.waiters.len())?)?;
        let (pairs, _) = state.waited(*id)?.as_chunks();
        let [found, key] = pairs[self.below(pairs.len())?];
        (found == kind).then_some(key)
    }

    pub(super) fn below(&self, end: usize) -> Option<usize> {
        (end > 0).then(|| self.random.below(end as u64) as usize)
    }

    /// A position among as many, or behind the last.
    pub(super) fn position(&self, count: usize) -> u64 {
        let count = count as u64;
        match self.random.below(8) {
            0 => self.random.pick(&[count, count + 1, 1 << 32, u64::MAX]),
            _ => self.random.below(count + 1),
        }
    }

    /// A time around now, or around a deadline.
    pub(super) fn time(&self, state: &State) -> u64 {
        let deadlines: Vec<u64> = state.waits().filter_map(|wait| wait.deadline).collect();
        match self.random.below(128) {
            0 => self.random.pick(&[0, 1, u64::MAX - 1, u64::MAX]),
            1 => self.random.number(),
            2..=31 if !deadlines.is_empty() => self.random.near(self.random.pick(&deadlines)),
            2..=49 => self.random.near(state.now),
            _ => state.now.saturating_add(self.random.below(40)),
        }
    }

    /// Memory around the keys, mostly of whole events.
    pub(super) fn backing(&self, state: &State) -> Backing {
        let random = self.random;
        let start = self.event(state);
        let made = Backing {
            base: start,
            size: LAYOUT * (1 + random.below(4)),
            layout: LAYOUT,
        };
        match random.below(10) {
            0 => Backing {
                base: random.near(start),
                ..made
            },
            1 => Backing {
                size: random.near(made.size),
                ..made
            },
            2 => Backing {
                layout: random.pick(&[0, 1, LAYOUT - 1, LAYOUT + 1, u64::MAX]),
                ..made
            },
            3 => Backing {
                size: random.pick(&[0, 1, u64::MAX - start, u64::MAX]),
                ..made
            },
            4 => Backing {
                base: start.saturating_sub(LAYOUT * random.below(3)),
                ..made
            },
            _ => made,
        }
    }
}
