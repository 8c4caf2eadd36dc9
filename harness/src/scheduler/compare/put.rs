//! What is put on both sides, where calls alone do not bring it, or not in reasonable time.
use crate::random::Random;
use crate::scheduler::Limits;
use crate::scheduler::answer::record;
use crate::scheduler::state::State;
use crate::scheduler::words;
use emumee::scheduler::{
    DPC_WORK_LIMIT, DpcOrigin, DpcPhase, DpcPolicy, DpcWork, Scheduler, TIMER_LIFETIME_LIMIT,
};

#[derive(Clone, Debug)]
pub enum Put {
    /// The next wait sequence.
    Sequence(u64),
    /// How often the timer was set.
    Arm {
        address: u64,
        count: u64,
    },
    Duplicates(u64),
    /// As much work more was accepted, and removed again.
    Removed(u64),
    /// As much work more was accepted, and came to its end.
    Restored(u64),
    TimerInitializations(u64),
    DpcInitializations(u64),
    /// The two arguments, or no policy.
    Policy(Option<[u64; 2]>),
    /// Where the work of a DPC that is not idle comes from.
    Origin {
        address: u64,
        origin: DpcOrigin,
    },
}

impl Put {
    /// A number at the end of its range, or just before; another policy or origin. Nothing where there
    /// is nothing to put.
    pub fn new(random: &Random, state: &State) -> Option<Self> {
        let short = random.below(4);
        let end = u64::MAX - short;
        let accepted = DPC_WORK_LIMIT - short;
        let work = accepted.checked_sub(state.counters.accepted);
        let initializations = TIMER_LIFETIME_LIMIT - short;
        match random.below(12) {
            0 => Some(Self::Sequence(end)),
            1 | 2 if state.timers.is_empty() => None,
            1 | 2 => Some(Self::Arm {
                address: random.pick(&state.timers).address,
                count: random.pick(&[end, u64::MAX]),
            }),
            3 => Some(Self::Duplicates(end)),
            4 => work.map(Self::Removed),
            5 => work.map(Self::Restored),
            6 => (state.timer_initializations < initializations)
                .then_some(Self::TimerInitializations(initializations)),
            7 => (state.dpc_initializations < initializations)
                .then_some(Self::DpcInitializations(initializations)),
            8 | 9 => Some(Self::Policy(state.policy.is_none().then_some([1, 2]))),
            _ => Self::origin(random, state),
        }
    }

    fn origin(random: &Random, state: &State) -> Option<Self> {
        let busy = state.dpcs.iter().filter(|dpc| dpc.phase.busy());
        let busy: Vec<u64> = busy.map(|dpc| dpc.address).collect();
        if busy.is_empty() {
            return None;
        }
        let origin = match state.timers.is_empty() || random.once_in(3) {
            true => DpcOrigin::Caller,
            false => {
                let timer = random.pick(&state.timers);
                DpcOrigin::Timer {
                    address: timer.address,
                    arm: timer.arm,
                    initialization: random.pick(&[timer.initialization, timer.initialization, 1]),
                    deadline: timer.due,
                    observed: state.now,
                    periodic: random.once_in(2),
                }
            }
        };
        Some(Self::Origin {
            address: random.pick(&busy),
            origin,
        })
    }

    /// Whether the number can still be put.
    pub fn fits(&self, state: &State) -> bool {
        match *self {
            Self::Sequence(_) | Self::Duplicates(_) => true,
            Self::Arm { address, .. } => state.timers.iter().any(|timer| timer.address == address),
            Self::Removed(more) | Self::Restored(more) => {
                state.counters.accepted + more <= DPC_WORK_LIMIT
            }
            Self::TimerInitializations(count) => state.timer_initializations <= count,
            Self::DpcInitializations(count) => state.dpc_initializations <= count,
            Self::Policy(_) => true,
            Self::Origin { address, .. } => state.dpc(address).is_some_and(|dpc| dpc.phase.busy()),
        }
    }

    pub fn on_original(&self, scheduler: &mut Scheduler) {
        let counters = scheduler.dpc_counters_mut();
        match *self {
            Self::Sequence(sequence) => *scheduler.sequence_mut() = sequence,
            Self::Arm { address, count } => {
                let timer = scheduler.timers_mut().get_mut(&address);
                timer.expect("a timer").arm_generation = count;
            }
            Self::Duplicates(count) => counters.duplicates = count,
            Self::Removed(more) => {
                counters.accepted += more;
                counters.removed += more;
            }
            Self::Restored(more) => {
                counters.accepted += more;
                counters.started += more;
                counters.returned += more;
                counters.restored += more;
            }
            Self::TimerInitializations(count) => *scheduler.timer_initializations_mut() = count,
            Self::DpcInitializations(count) => *scheduler.dpc_initializations_mut() = count,
            Self::Policy(policy) => {
                *scheduler.dpc_policy_mut() = policy.map_or(DpcPolicy::Unselected, cpu0_dispatch);
            }
            Self::Origin {
                address,
                ref origin,
            } => {
                let dpc = scheduler.dpcs_mut().get_mut(&address).expect("a DPC");
                work_mut(&mut dpc.phase).expect("work").origin = origin.clone();
            }
        }
    }

    pub fn on_words(&self, words: &mut [u64], limits: Limits) {
        match *self {
            Self::Sequence(sequence) => words[words::SEQUENCE] = sequence,
            Self::Arm { address, count } => {
                let place = words::find_object(words, limits, address).expect("a timer");
                words[place + words::ARM] = count;
            }
            Self::Duplicates(count) => words[words::DUPLICATES] = count,
            Self::Removed(more) => {
                for place in [words::ACCEPTED, words::REMOVED] {
                    words[place] += more;
                }
            }
            Self::Restored(more) => {
                for place in [
                    words::ACCEPTED,
                    words::STARTED,
                    words::RETURNED,
                    words::RESTORED,
                ] {
                    words[place] += more;
                }
            }
            Self::TimerInitializations(count) => words[words::TIMER_INITIALIZATIONS] = count,
            Self::DpcInitializations(count) => words[words::DPC_INITIALIZATIONS] = count,
            Self::Policy(policy) => {
                words[words::POLICY] = policy.is_some().into();
                words[words::TIMER_ARGUMENTS..][..2].copy_from_slice(&policy.unwrap_or_default());
            }
            Self::Origin {
                address,
                ref origin,
            } => {
                let place = words::find_dpc(words, limits, address).expect("a DPC");
                let origin = record::origin_words(origin);
                let put = &mut words[place + words::WORK + 3..][..words::ORIGIN_WORDS];
                put.fill(0);
                put[..origin.len()].copy_from_slice(&origin);
            }
        }
    }
}

fn cpu0_dispatch(timer_arguments: [u64; 2]) -> DpcPolicy {
    DpcPolicy::Cpu0Dispatch { timer_arguments }
}

fn work_mut(phase: &mut DpcPhase) -> Option<&mut DpcWork> {
    match phase {
        DpcPhase::Idle => None,
        DpcPhase::Queued(work) | DpcPhase::Running(work) | DpcPhase::Returning(work) => Some(work),
    }
}
