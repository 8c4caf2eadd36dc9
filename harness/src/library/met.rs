//! What a call meets, so that the stored lists can be chosen: the pair of a call and its answer, what it
//! did to threads and DPCs, and the states of all that there is afterwards.
use super::Met;
use super::made::Made;
use crate::scheduler::answer::Answer;
use crate::scheduler::state::{Dpc, Ended, State, Status, Thread, Timer, dpc_size, timer_size};
use crate::scheduler::{Call, Location};
use emumee::pe::Architecture;
use emumee::scheduler::{DpcOrigin, DpcPhase, TimerBacking};

/// The bytes of an event and of a mutex.
const EVENT: u64 = 24;
const MUTEX: u64 = 56;

/// `message` is what the original said where it refused.
pub fn met(
    made: &Made,
    answer: &Answer,
    message: Option<&str>,
    before: &State,
    after: &State,
) -> Met {
    let name = made.call.name();
    let mut met = Met::from([format!("{name}: {}", answer.kind())]);
    if answer.number() != 0 {
        let message = message.unwrap_or("by document 01");
        for reason in reasons(&made.call, answer.number(), before) {
            met.insert(format!("{name}: {}, {message}, {reason}", answer.kind()));
        }
        met.insert(format!("{name}: {}, {message}", answer.kind()));
        return met;
    }
    match (&made.call, answer) {
        (Call::Wait { list, all, .. }, _) => {
            let all = if *all { "all" } else { "any" };
            let kind = list.first().map(u64::to_string).unwrap_or_default();
            let more = some(list.len() / 2);
            met.insert(format!(
                "{name} {all} of {more}, kind {kind}: {}",
                answer.kind()
            ));
        }
        (Call::Dispatch, Answer::AdvanceTo(time)) => {
            for source in sources(before, *time) {
                met.insert(format!("{name}: advance to {source}"));
            }
        }
        (Call::Dispatch, Answer::Deadlocked(waiting)) => {
            met.insert(format!("{name}: deadlocked {}", some(waiting.len())));
        }
        (Call::TimerImage { address }, _) => {
            for timer in after
                .timers
                .iter()
                .filter(|timer| timer.address == *address)
            {
                met.insert(format!(
                    "{name} of {:?}, {}",
                    timer.architecture,
                    set(timer)
                ));
            }
        }
        (Call::DpcImage { address }, _) => {
            let dpc = after.dpc(*address).expect("a DPC with an image");
            met.insert(format!(
                "{name} of {:?}, {}",
                dpc.architecture,
                phase(&dpc.phase)
            ));
        }
        _ => {}
    }
    met.extend(changes(name, before, after));
    met.extend(states(after));
    met
}

/// Why a call is refused, where one number has several reasons.
fn reasons(call: &Call, number: u64, state: &State) -> Vec<&'static str> {
    let found = match (number, call) {
        (7, Call::Wait { list, .. }) => {
            let pairs = list.as_chunks::<2>().0;
            let twice = |index: usize| pairs[..index].contains(&pairs[index]);
            vec![
                (list.is_empty(), "none"),
                (pairs.len() > 64, "over 64"),
                (list.len() % 2 == 1, "odd"),
                (pairs.iter().any(|pair| pair[0] > 3), "kind"),
                ((0..pairs.len()).any(twice), "twice"),
            ]
        }
        (15, Call::InitializeTimer { location, .. }) => {
            location_reasons(location, timer_size(location.architecture))
        }
        (15, Call::InitializeDpc { location, .. }) => {
            location_reasons(location, dpc_size(location.architecture))
        }
        (16, Call::InitializeTimer { location, .. }) => {
            overlap_reasons(location.address, timer_size(location.architecture), state)
        }
        (16, Call::InitializeDpc { location, .. }) => {
            overlap_reasons(location.address, dpc_size(location.architecture), state)
        }
        (
            20,
            Call::ConfigureDpcDispatch {
                arguments: [first, second],
            },
        ) => vec![
            (state.is_new() && *first == 0, "first 0"),
            (state.is_new() && *second == 0, "second 0"),
            (state.is_new() && first == second, "equal"),
            (state.policy.is_some(), "chosen"),
            (state.threads.len() > 1, "threads"),
            (state.current.is_none(), "none current"),
            (state.objects() > 0, "objects"),
            (!state.dpcs.is_empty(), "DPCs"),
            (state.now > 0, "time"),
        ],
        _ => vec![],
    };
    found
        .into_iter()
        .filter_map(|(is_met, reason)| is_met.then_some(reason))
        .collect()
}

fn location_reasons(location: &Location, size: u64) -> Vec<(bool, &'static str)> {
    let Location {
        address,
        architecture,
        backing,
    } = *location;
    let (width, end) = match architecture {
        Architecture::X64 => (8, u128::from(u64::MAX)),
        Architecture::X86 => (4, 1 << 32),
    };
    let (base, room, fits) = match backing {
        TimerBacking::Image { base, size } => (base, size, true),
        TimerBacking::NonpagedPool {
            base,
            requested,
            mapped,
        } => (base, requested, requested <= mapped),
    };
    let [own, backing] =
        [(address, size), (base, room)].map(|(base, size)| u128::from(base) + u128::from(size));
    vec![
        (address == 0, "address 0"),
        (address % width != 0, "not aligned"),
        (own > end, "end"),
        (backing > u128::from(u64::MAX), "backing's end"),
        (address < base, "before its backing"),
        (own > backing, "behind its backing"),
        (!fits, "more requested than mapped"),
    ]
}

fn overlap_reasons(address: u64, size: u64, state: &State) -> Vec<(bool, &'static str)> {
    let overlaps = |other: u64, other_size: u64| {
        let [end, other_end] = [(address, size), (other, other_size)]
            .map(|(base, size)| u128::from(base) + u128::from(size));
        u128::from(address) < other_end && u128::from(other) < end
    };
    let timer = |timer: &Timer| overlaps(timer.address, timer_size(timer.architecture));
    let dpc = |dpc: &Dpc| overlaps(dpc.address, dpc_size(dpc.architecture));
    vec![
        (state.timers.iter().any(timer), "a timer"),
        (state.dpcs.iter().any(dpc), "a DPC"),
        (
            state.events.iter().any(|event| overlaps(event.key, EVENT)),
            "an event",
        ),
        (
            state.mutexes.iter().any(|(key, _)| overlaps(*key, MUTEX)),
            "a mutex",
        ),
    ]
}

/// What a dispatch waits for until the time.
fn sources(state: &State, time: u64) -> Vec<&'static str> {
    let deadline = state.waits().any(|wait| wait.deadline == Some(time));
    let due = |dpc: bool| {
        state
            .inserted()
            .any(|timer| timer.due == time && (timer.dpc != 0) == dpc)
    };
    [
        (deadline, "a deadline"),
        (due(true), "a timer with a DPC"),
        (due(false), "an awaited timer"),
    ]
    .into_iter()
    .filter_map(|(is_met, source)| is_met.then_some(source))
    .collect()
}

fn some(count: usize) -> &'static str {
    match count {
        0 => "none",
        1 => "one",
        _ => "several",
    }
}

/// What a call made of the threads that waited, and of the DPC queue.
fn changes(name: &str, before: &State, after: &State) -> Met {
    let mut met = Met::new();
    let [mut woken, mut timeouts] = [0, 0];
    for (was, is) in before.threads.iter().zip(&after.threads) {
        let (Status::Waiting(wait), Status::Ready) = (&was.status, &is.status) else {
            continue;
        };
        match is.result {
            Some(Ended::Satisfied(index)) => {
                woken += 1;
                let taken = if wait.all {
                    None
                } else {
                    wait.list.get(2 * index as usize)
                };
                let taken = taken.map_or("all".to_string(), |kind| format!("any, kind {kind}"));
                let place = if index == 0 { "first" } else { "later" };
                met.insert(format!(
                    "{name} wakes: {taken}, {place}, of {}",
                    some(wait.list.len() / 2)
                ));
            }
            _ => {
                timeouts += 1;
                let list = some(wait.list.len() / 2);
                met.insert(format!("{name} times out: a wait for {list}"));
            }
        }
    }
    met.insert(format!(
        "{name} wakes {}, times out {}",
        some(woken),
        some(timeouts)
    ));
    let more = |now: u64, then: u64| some(now.saturating_sub(then) as usize);
    let [then, now] = [before.counters, after.counters];
    met.insert(format!(
        "{name} queues {}, duplicates {}, removes {}",
        more(now.accepted, then.accepted),
        more(now.duplicates, then.duplicates),
        more(now.removed, then.removed)
    ));
    let gone = |now: usize, then: usize| some(then.saturating_sub(now));
    met.insert(format!(
        "{name} takes out {} of the timers, {} of the DPCs, {} of the events",
        gone(after.timers.len(), before.timers.len()),
        gone(after.dpcs.len(), before.dpcs.len()),
        gone(after.events.len(), before.events.len())
    ));
    met
}

fn backing(backing: &TimerBacking) -> &'static str {
    match backing {
        TimerBacking::Image { .. } => "image",
        TimerBacking::NonpagedPool { .. } => "pool",
    }
}

fn set(timer: &Timer) -> String {
    let Timer {
        inserted,
        signaled,
        absolute,
        ..
    } = timer;
    let (period, dpc) = (timer.period != 0, timer.dpc != 0);
    format!(
        "inserted {inserted}, signaled {signaled}, absolute {absolute}, period {period}, DPC {dpc}"
    )
}

fn phase(phase: &DpcPhase) -> String {
    let (name, work) = match phase {
        DpcPhase::Idle => return "idle".to_string(),
        DpcPhase::Queued(work) => ("queued", work),
        DpcPhase::Running(work) => ("running", work),
        DpcPhase::Returning(work) => ("returning", work),
    };
    match work.origin {
        DpcOrigin::Caller => format!("{name} for a caller"),
        DpcOrigin::Timer { periodic, .. } => format!("{name} for a timer, periodic {periodic}"),
    }
}

fn thread(thread: &Thread) -> String {
    let status = match &thread.status {
        Status::Running => "running".to_string(),
        Status::Ready => "ready".to_string(),
        Status::Waiting(wait) => format!("waiting, timed {}", wait.deadline.is_some()),
        Status::Exited(_) => "exited".to_string(),
    };
    let result = match thread.result {
        None => "none",
        Some(Ended::Timeout) => "timeout",
        Some(Ended::Satisfied(_)) => "satisfied",
    };
    format!("thread {status}, result {result}")
}

/// The states of all that there is.
fn states(state: &State) -> Met {
    let mut met = Met::new();
    met.extend(state.threads.iter().map(thread));
    for (key, owner) in &state.mutexes {
        let waits = state
            .waits()
            .any(|wait| wait.list.as_chunks().0.contains(&[0, *key]));
        met.insert(format!(
            "mutex owned {}, waited on {waits}",
            owner.is_some()
        ));
    }
    for event in &state.events {
        met.insert(format!(
            "event manual {}, signaled {}",
            event.manual, event.signaled
        ));
    }
    for timer in &state.timers {
        let Timer {
            architecture,
            manual,
            ..
        } = timer;
        met.insert(format!(
            "timer of {architecture:?} in {}",
            backing(&timer.backing)
        ));
        met.insert(format!("timer manual {manual}, {}", set(timer)));
    }
    for dpc in &state.dpcs {
        met.insert(format!(
            "DPC of {:?} in {}",
            dpc.architecture,
            backing(&dpc.backing)
        ));
        met.insert(format!("DPC {}", phase(&dpc.phase)));
    }
    met
}
