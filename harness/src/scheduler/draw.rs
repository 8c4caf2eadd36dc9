//! Random calls that mean something to the state they meet, with edges over-represented.
mod arguments;
mod lists;
mod sites;
mod timers;

use super::state::State;
use super::{Call, Limits};
use crate::random::Random;
use sites::{Kind, Sites};

/// The bytes of an event, by which most keys are apart.
const LAYOUT: u64 = 24;
/// A prime above the number of keys.
const STRIDE: usize = 10_007;
const EDGES: [u64; 8] = [
    0,
    1,
    2,
    1 << 32,
    1 << 63,
    u64::MAX - LAYOUT,
    u64::MAX - 1,
    u64::MAX,
];

pub struct Draw<'a> {
    random: &'a Random,
    keys: Vec<u64>,
    sites: Sites,
}

impl<'a> Draw<'a> {
    /// Calls on about `size` keys of mutexes and events, and as many places of timers and of DPCs.
    pub fn new(random: &'a Random, size: u64) -> Self {
        let last = u64::MAX - LAYOUT * (size + 1);
        let base = random.pick(&[1, 4096, 4096, 4096, 1 << 32, last]);
        let mut keys: Vec<u64> = (0..size).map(|index| base + LAYOUT * index).collect();
        if random.once_in(4) {
            keys.extend(EDGES);
        }
        let sites = Sites::new(random, size.max(3), base);
        Self {
            random,
            keys,
            sites,
        }
    }

    /// A call that adds a thread, an object or a DPC. Rising indices go through all keys and
    /// places, in no order.
    pub fn addition(&self, index: usize, limits: Limits) -> Call {
        let random = self.random;
        let part = random.below(limits.threads + limits.objects + limits.dpcs);
        if part < limits.threads {
            return Call::CreateThread {
                priority: self.good_priority(),
            };
        }
        if part < limits.threads + limits.dpcs {
            return Call::InitializeDpc {
                location: self.good_location(Kind::Dpc, index),
                routine: random.number(),
                context: random.number(),
            };
        }
        let key = self.keys[index * STRIDE % self.keys.len()];
        match random.below(4) {
            0 => Call::InitializeMutex { key },
            1 => self.initialize_event(key),
            _ => Call::InitializeTimer {
                location: self.good_location(Kind::Timer, index),
                manual: random.once_in(2),
            },
        }
    }

    /// A call, those among them that the scripts and the benchmark leave out: the setting of a timer
    /// by a signed due, and what a thread waits for that does not wait.
    pub fn any_call(&self, state: &State, limits: Limits) -> Call {
        match self.call(state, limits) {
            Call::SetTimer { .. } if self.random.once_in(4) => self.set_timer_signed(state),
            Call::Thread { id } if state.is_not_waiting(id) && self.random.once_in(2) => {
                Call::WaitedObject {
                    id,
                    position: self.position(2),
                }
            }
            call => call,
        }
    }

    pub fn call(&self, state: &State, limits: Limits) -> Call {
        let random = self.random;
        if state.is_new() && random.once_in(2) {
            return self.any_configure();
        }
        if random.once_in(2) {
            return self.timer_call(state);
        }
        if state.current.is_none() && random.below(5) < 3 {
            return self.onward(state);
        }
        match random.below(1000) {
            0..=4 => Call::WordsNeeded(self.limits(limits)),
            5..=8 => Call::Open {
                priority: self.priority(),
                limits: self.limits(limits),
            },
            9..=11 => Call::Current,
            12..=16 => self.thread_read(state),
            17..=64 => Call::CreateThread {
                priority: self.priority(),
            },
            65..=109 => Call::Priority {
                id: self.thread(state),
                priority: self.priority(),
            },
            110..=144 => Call::YieldCurrent,
            145..=169 => Call::Terminate {
                status: random.pick(&[0, 1, u32::MAX, random.next() as u32]),
            },
            170..=204 => Call::InitializeMutex { key: self.key() },
            205..=244 => self.adopt_mutex(state),
            245..=254 => Call::MutexOwner {
                key: self.mutex(state),
            },
            255..=264 => Call::MutexWaiters {
                key: self.mutex(state),
            },
            265..=339 => Call::ReleaseMutex {
                key: self.own_mutex(state),
            },
            340..=394 => self.initialize_event(self.key()),
            395..=459 => Call::SetEvent {
                key: self.event(state),
            },
            460..=489 => Call::ResetEvent {
                key: self.event(state),
            },
            490..=499 => Call::EventState {
                key: self.event(state),
            },
            500..=509 => Call::EventStates {
                position: self.position(state.events.len()),
            },
            510..=529 => Call::RequireEventRelease(self.backing(state)),
            530..=549 => Call::RetireEventBacking(self.backing(state)),
            550..=859 => self.wait(state),
            860..=899 => Call::DelayUntil {
                deadline: self.time(state),
                irql: self.irql(),
            },
            900..=949 => Call::AdvanceTo {
                time: self.advance(state),
            },
            _ => Call::Dispatch,
        }
    }

    /// A call that is likely to bring a scheduler on where no thread runs.
    fn onward(&self, state: &State) -> Call {
        let deadlines = state.waits().filter_map(|wait| wait.deadline);
        let dues = state.inserted().map(|timer| timer.due);
        let soonest = deadlines.chain(dues).min();
        match (self.random.below(8), soonest) {
            (0, _) => self.initialize_event(self.key()),
            (1, _) => Call::SetEvent {
                key: self.event(state),
            },
            (2, Some(time)) => Call::AdvanceTo { time },
            (3, Some(_)) => Call::AdvanceTo {
                time: self.advance(state),
            },
            (2, None) => Call::CreateThread {
                priority: self.good_priority(),
            },
            _ => Call::Dispatch,
        }
    }

    /// What is read of a thread's wait only where it waits.
    fn thread_read(&self, state: &State) -> Call {
        let id = self.thread(state);
        let waited = state.waited(id);
        match self.random.below(4) {
            0 => Call::Threads {
                position: self.position(state.threads.len()),
            },
            1 => Call::Thread { id },
            _ if state.is_not_waiting(id) => Call::Thread { id },
            _ => Call::WaitedObject {
                id,
                position: self.position(waited.map_or(0, |list| list.len() / 2)),
            },
        }
    }

    fn wait(&self, state: &State) -> Call {
        Call::Wait {
            list: self.list(state),
            all: self.random.once_in(3),
            timed: self.random.once_in(2),
            deadline: self.time(state),
            irql: self.irql(),
        }
    }

    fn adopt_mutex(&self, state: &State) -> Call {
        let key = match self.random.below(3) {
            0 => self.mutex(state),
            _ => self.key(),
        };
        let known = state.mutexes.iter().find(|(known, _)| *known == key);
        let owner = match known {
            Some((_, owner)) if self.random.once_in(2) => *owner,
            _ => self.random.once_in(2).then_some(self.thread(state)),
        };
        Call::AdoptMutex {
            key,
            owned: owner.is_some(),
            owner: owner.unwrap_or(self.random.pick(&[0, 1, u64::MAX])),
        }
    }

    fn initialize_event(&self, key: u64) -> Call {
        Call::InitializeEvent {
            key,
            manual: self.random.once_in(2),
            signaled: self.random.once_in(3),
        }
    }
}
