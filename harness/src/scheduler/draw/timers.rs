//! Calls on timers and DPCs.
use super::Draw;
use super::sites::Kind;
use crate::scheduler::Call;
use crate::scheduler::state::{Dpc, State, Timer};
use emumee::scheduler::DpcPhase;

/// The ticks of a millisecond.
const MILLISECOND: u64 = 10_000;

impl Draw<'_> {
    /// The choice of a policy, which is good by itself.
    pub fn configure(&self) -> Call {
        let first = 1 + self.random.below(1000);
        Call::ConfigureDpcDispatch {
            arguments: self.random.pick(&[
                [first, first + 1],
                [first + 1, first],
                [u64::MAX, first],
            ]),
        }
    }

    pub(super) fn timer_call(&self, state: &State) -> Call {
        let random = self.random;
        match random.below(1000) {
            0..=119 => self.initialize_timer(state),
            120..=219 => self.initialize_dpc(state),
            220..=469 => self.set_timer(state),
            470..=509 => Call::CancelTimer {
                address: self.timer(state),
            },
            510..=529 => Call::RequireTimerRelease(self.span(state)),
            530..=554 => Call::RetireTimerBacking(self.span(state)),
            555..=559 => self.any_configure(),
            560..=649 => self.insert(state),
            650..=679 => Call::RemoveQueueDpc {
                address: self.dpc(state),
            },
            680..=819 => self.work(state),
            820..=919 => Call::AdvanceTo {
                time: self.advance(state),
            },
            _ => self.timer_read(state),
        }
    }

    /// The setting of a timer that is not inserted, if there is one, with a free DPC or none.
    pub fn arming(&self, state: &State) -> Call {
        let free: Vec<u64> = state
            .timers
            .iter()
            .filter(|timer| !timer.inserted)
            .map(|timer| timer.address)
            .collect();
        match (self.below(free.len()), self.set_timer(state)) {
            (
                Some(index),
                Call::SetTimer {
                    due,
                    absolute,
                    period,
                    dpc,
                    ..
                },
            ) => Call::SetTimer {
                address: free[index],
                due,
                absolute,
                period: period.max(0),
                dpc,
            },
            (_, call) => call,
        }
    }

    fn insert(&self, state: &State) -> Call {
        Call::InsertQueueDpc {
            address: self.dpc_to_insert(state),
            arguments: [self.random.number(), self.random.number()],
        }
    }

    pub(super) fn any_configure(&self) -> Call {
        let random = self.random;
        let number = random.pick(&[1, 7, u64::MAX]);
        match random.below(4) {
            0 => Call::ConfigureDpcDispatch {
                arguments: random.pick(&[[0, number], [number, 0], [number, number], [0, 0]]),
            },
            _ => self.configure(),
        }
    }

    fn initialize_timer(&self, state: &State) -> Call {
        let known = self.random.once_in(4).then(|| self.timer(state));
        let mut location = self.location(Kind::Timer, state);
        location.address = known.unwrap_or(location.address);
        Call::InitializeTimer {
            location,
            manual: self.random.once_in(2),
        }
    }

    fn initialize_dpc(&self, state: &State) -> Call {
        let known = self.random.once_in(4).then(|| self.dpc(state));
        let mut location = self.location(Kind::Dpc, state);
        location.address = known.unwrap_or(location.address);
        Call::InitializeDpc {
            location,
            routine: self.random.number(),
            context: self.random.number(),
        }
    }

    fn set_timer(&self, state: &State) -> Call {
        let random = self.random;
        Call::SetTimer {
            address: self.timer(state),
            due: self.due(state),
            absolute: random.once_in(2),
            period: self.period(),
            dpc: self.dpc_to_name(state),
        }
    }

    pub(super) fn set_timer_signed(&self, state: &State) -> Call {
        Call::SetTimerSigned {
            address: self.timer(state),
            due: self.signed_due(state),
            period: self.period(),
            dpc: self.dpc_to_name(state),
        }
    }

    /// Mostly a due of `set_timer`, as a time or from now on; also as far as the end of time.
    fn signed_due(&self, state: &State) -> i64 {
        let random = self.random;
        let from_now = |due: u64| state.now.wrapping_sub(due) as i64;
        match random.below(32) {
            0 | 1 => random.pick(&[i64::MIN, i64::MIN + 1, -1, 0, 1, i64::MAX - 1, i64::MAX]),
            2 | 3 => from_now(random.near(u64::MAX)),
            4 => random.next() as i64 >> random.below(64),
            5..=17 => self.due(state) as i64,
            _ => from_now(self.due(state)),
        }
    }

    fn period(&self) -> i32 {
        match self.random.below(32) {
            0 => self.random.pick(&[-1, i32::MIN]),
            1 => self.random.pick(&[i32::MAX, i32::MAX - 1, 1 << 24]),
            2..=13 => 1 + self.random.below(3) as i32,
            _ => 0,
        }
    }

    /// A time around now or around another due, past ones too.
    fn due(&self, state: &State) -> u64 {
        let random = self.random;
        let dues: Vec<u64> = state.inserted().map(|timer| timer.due).collect();
        match random.below(64) {
            0 => random.pick(&[0, 1, 1 << 63, u64::MAX - 1, u64::MAX]),
            1 => random.number(),
            2 => u64::MAX - random.below(3 * MILLISECOND),
            3..=15 if !dues.is_empty() => random.pick(&dues),
            16..=19 if !dues.is_empty() => random.near(random.pick(&dues)),
            3..=25 => random.near(state.now),
            26..=31 => state.now.saturating_sub(random.below(3 * MILLISECOND)),
            32..=39 => state.now.saturating_add(random.below(2 * MILLISECOND)),
            _ => state.now.saturating_add(random.below(40)),
        }
    }

    /// Mostly as far as a due or a deadline, or some periods further.
    pub(super) fn advance(&self, state: &State) -> u64 {
        let random = self.random;
        let dues: Vec<u64> = state.inserted().map(|timer| timer.due).collect();
        let at_least_now = |time: u64| time.max(state.now);
        match random.below(32) {
            0 if random.once_in(8) => u64::MAX - random.below(3),
            0..=11 if !dues.is_empty() => at_least_now(random.pick(&dues)),
            12..=15 if !dues.is_empty() => random.near(random.pick(&dues)),
            16..=19 if !dues.is_empty() => {
                let periods = MILLISECOND * random.below(7);
                random.near(at_least_now(random.pick(&dues)).saturating_add(periods))
            }
            20..=22 => state.now.saturating_add(random.below(4 * MILLISECOND)),
            _ => self.time(state),
        }
    }

    /// Mostly the address of a timer.
    pub(super) fn timer(&self, state: &State) -> u64 {
        match self.random.below(24) {
            0 => self.site(Kind::Timer, state),
            1 => self.dpc(state),
            2 => self.key(),
            3..=6 => self
                .waited(state, 2)
                .unwrap_or_else(|| self.site(Kind::Timer, state)),
            _ if state.timers.is_empty() => self.site(Kind::Timer, state),
            _ => self.random.pick(&state.timers).address,
        }
    }

    /// Mostly the address of a DPC.
    pub(super) fn dpc(&self, state: &State) -> u64 {
        match self.random.below(24) {
            0 => self.site(Kind::Dpc, state),
            1 => self.key(),
            2 => state.timers.first().map_or(0, |timer| timer.address),
            _ => self.known_dpc(state, |_| true),
        }
    }

    /// None, or mostly a DPC that a timer can have. Without a policy mostly none.
    fn dpc_to_name(&self, state: &State) -> u64 {
        let random = self.random;
        let none = if state.policy.is_some() { 3 } else { 7 };
        match random.below(8) {
            part if part < none => 0,
            7 if random.once_in(3) => self.dpc(state),
            _ => self.known_dpc(state, |dpc| {
                matches!(dpc.phase, DpcPhase::Idle) && !is_named(state, dpc)
            }),
        }
    }

    fn dpc_to_insert(&self, state: &State) -> u64 {
        match self.random.below(8) {
            0 => self.dpc(state),
            1 => self.random.pick(&[0, self.site(Kind::Dpc, state)]),
            2 | 3 => self.known_dpc(state, |dpc| matches!(dpc.phase, DpcPhase::Queued(_))),
            _ => self.known_dpc(state, |dpc| !is_named(state, dpc)),
        }
    }

    /// A DPC of those that pass, or of all where none does.
    fn known_dpc(&self, state: &State, passes: impl Fn(&Dpc) -> bool) -> u64 {
        let passing: Vec<u64> = state
            .dpcs
            .iter()
            .filter(|dpc| passes(dpc))
            .map(|dpc| dpc.address)
            .collect();
        match self.below(passing.len()) {
            Some(index) => passing[index],
            None => match self.below(state.dpcs.len()) {
                Some(index) => state.dpcs[index].address,
                None => self.site(Kind::Dpc, state),
            },
        }
    }

    /// What brings the queue on, mostly with the right address and sequence.
    fn work(&self, state: &State) -> Call {
        let random = self.random;
        let active = state.active.and_then(|address| state.dpc(address));
        if active.is_none() && state.queue.is_empty() && !random.once_in(4) {
            return self.insert(state);
        }
        let address = match active {
            Some(dpc) => dpc.address,
            None => state.next.unwrap_or_else(|| self.dpc(state)),
        };
        let address = match random.below(16) {
            0 => self.dpc(state),
            1 if state.queue.len() > 1 => state.queue[1],
            _ => address,
        };
        let sequence = active
            .and_then(|dpc| dpc.phase.work())
            .map_or(0, |work| work.sequence);
        let sequence = match random.below(12) {
            0 => random.near(sequence),
            1 => random.pick(&[0, u64::MAX, state.counters.accepted]),
            _ => sequence,
        };
        let step = match active.map(|dpc| &dpc.phase) {
            Some(DpcPhase::Running(_)) => 1,
            Some(DpcPhase::Returning(_)) => 2,
            _ => 0,
        };
        match random.below(16) {
            0..=12 => [
                Call::StartDpc { address },
                Call::ReturnedDpc { address, sequence },
                Call::RestoredDpc { address, sequence },
            ][step]
                .clone(),
            13 => Call::StartDpc { address },
            14 => Call::ReturnedDpc { address, sequence },
            _ => Call::RestoredDpc { address, sequence },
        }
    }

    fn timer_read(&self, state: &State) -> Call {
        match self.random.below(21) {
            0 => Call::Timer {
                address: self.timer(state),
            },
            1 => Call::Timers {
                position: self.position(state.timers.len()),
            },
            2 => Call::PendingTimerDpc,
            3 => Call::TimerInitializations,
            4 | 5 => Call::TimerReadOverlap(self.span(state)),
            6 | 7 => Call::TimerMetadataOverlap(self.span(state)),
            8 | 9 => Call::TimerImage {
                address: self.timer(state),
            },
            10 => Call::Dpc {
                address: self.dpc(state),
            },
            11 => Call::Dpcs {
                position: self.position(state.dpcs.len()),
            },
            12 => Call::ActiveDpc,
            13 => Call::NextDpc,
            14 | 15 => Call::QueuedDpcs {
                position: self.position(state.queue.len()),
            },
            16 => Call::DpcPolicy,
            17 => Call::DpcCounters,
            18 => Call::DpcInitializations,
            _ => Call::DpcImage {
                address: self.dpc(state),
            },
        }
    }
}

fn is_named(state: &State, dpc: &Dpc) -> bool {
    let has = |timer: &Timer| timer.dpc == dpc.address;
    state.inserted().any(has)
}
