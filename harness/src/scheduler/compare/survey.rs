//! The reads of everything that a state holds, or of a part where there is much.
use crate::random::Random;
use crate::scheduler::Call;
use crate::scheduler::state::State;

/// The most that is read of each kind.
const MOST: usize = 40;

pub fn calls(random: &Random, state: &State) -> Vec<Call> {
    let mut calls = vec![
        Call::Current,
        Call::PendingTimerDpc,
        Call::TimerInitializations,
        Call::DpcInitializations,
        Call::ActiveDpc,
        Call::NextDpc,
        Call::DpcPolicy,
        Call::DpcCounters,
    ];
    for position in positions(random, state.events.len()) {
        calls.push(Call::EventStates { position });
    }
    for (position, address) in some(random, &state.timers, |timer| timer.address) {
        calls.push(Call::Timers { position });
        calls.push(Call::Timer { address });
        calls.push(Call::TimerImage { address });
    }
    for (position, address) in some(random, &state.dpcs, |dpc| dpc.address) {
        calls.push(Call::Dpcs { position });
        calls.push(Call::Dpc { address });
        calls.push(Call::DpcImage { address });
    }
    for position in positions(random, state.queue.len()) {
        calls.push(Call::QueuedDpcs { position });
    }
    for position in positions(random, state.threads.len()) {
        calls.push(Call::Threads { position });
        let waited = state.waited(position + 1).unwrap_or_default();
        // One past the last too, which of a thread that does not wait is the first.
        for place in positions(random, waited.len() / 2 + 1) {
            calls.push(Call::WaitedObject {
                id: position + 1,
                position: place,
            });
        }
    }
    calls
}

fn some<T>(random: &Random, all: &[T], address: impl Fn(&T) -> u64) -> Vec<(u64, u64)> {
    positions(random, all.len())
        .into_iter()
        .map(|position| (position, address(&all[position as usize])))
        .collect()
}

/// All positions, or some.
fn positions(random: &Random, count: usize) -> Vec<u64> {
    let count = count as u64;
    if count <= MOST as u64 {
        return (0..count).collect();
    }
    (0..MOST).map(|_| random.below(count)).collect()
}
