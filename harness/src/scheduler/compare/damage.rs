//! A word of a scheduler, in use or not, changed to an edge or to any number; or the counters together.
use super::both::{Both, Step};
use crate::random::Random;
use crate::scheduler::Limits;
use crate::scheduler::state::State;
use crate::scheduler::words::{
    ACCEPTED, COUNT, DPC_USED, DPC_WORDS, HEADER, OBJECT_WORDS, PLACES, REMOVED, RESTORED, RETURNED,
    STARTED, THREAD_WORDS, TIMER_USED, dpc_at, object_at, thread_at,
};

pub fn steps(random: &Random, both: &Both) -> Vec<Step> {
    if random.once_in(24) {
        return counters(random, both.words());
    }
    let place = place(random, both.state(), both.limits());
    vec![Step::Word {
        place,
        value: value(random, both.state(), both.words()[place]),
    }]
}

/// As many restorations and removals more or less, and the other counters by the same sums, around the
/// ends of 64 bits too; one of them a little off now and then.
fn counters(random: &Random, words: &[u64]) -> Vec<Step> {
    let change = || random.pick(&[0, 1, 2, u64::MAX, u64::MAX - 1]);
    let (restored, removed) = (change(), change());
    let accepted = restored.wrapping_add(removed);
    let accepted = match random.once_in(4) {
        true => random.near(accepted),
        false => accepted,
    };
    let changes = [
        (ACCEPTED, accepted),
        (REMOVED, removed),
        (STARTED, restored),
        (RETURNED, restored),
        (RESTORED, restored),
    ];
    let word = |(place, change): (usize, u64)| Step::Word {
        place,
        value: words[place].wrapping_add(change),
    };
    changes.into_iter().map(word).collect()
}

/// A word in use, or any.
fn place(random: &Random, state: &State, limits: Limits) -> usize {
    let below = |end: usize| random.below(end as u64) as usize;
    let threads = state.threads.len() as u64;
    let (objects, dpcs) = (state.objects(), state.dpcs.len() as u64);
    match random.below(24) {
        0..=2 => below(HEADER),
        3..=5 => below(26),
        6..=8 => thread_at(1 + random.below(threads)) + below(COUNT + 1),
        9 => thread_at(1 + random.below(threads)) + PLACES + below(8),
        10 => thread_at(1 + random.below(threads)) + below(THREAD_WORDS),
        11..=15 if objects > 0 => object_at(limits, random.below(objects)) + below(TIMER_USED),
        16 if objects > 0 => object_at(limits, random.below(objects)) + below(OBJECT_WORDS),
        17..=21 if dpcs > 0 => dpc_at(limits, random.below(dpcs)) + below(DPC_USED),
        22 if dpcs > 0 => dpc_at(limits, random.below(dpcs)) + below(DPC_WORDS),
        _ => below(limits.words()),
    }
}

fn value(random: &Random, state: &State, old: u64) -> u64 {
    let threads = state.threads.len() as u64;
    match random.below(12) {
        0 => random.near(old),
        1 => old ^ 1 << random.below(64),
        2 => random.below(threads + 2),
        3 | 4 => random.below(6),
        5 => random.pick(&[31, 32, 64, 65, 255, 256, 257, 4096, 4097, 65536, 65537]),
        6 => random.pick(&[u64::MAX, u64::MAX - 1, 1 << 31, 1 << 32, 1 << 63]),
        7 => state.sequence.wrapping_sub(random.below(3)),
        8 if !state.timers.is_empty() => random.near(random.pick(&state.timers).address),
        9 if !state.dpcs.is_empty() => {
            let index = random.below(state.dpcs.len() as u64) as usize;
            random.near(state.dpcs[index].address)
        }
        10 => random.below(state.dpcs.len() as u64 + 2),
        _ => random.number(),
    }
}
