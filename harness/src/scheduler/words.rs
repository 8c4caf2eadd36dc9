//! The scheduler's words: where things stand, and the state that they hold.
use super::Limits;
use super::answer::record;
use super::state::{Counters, Dpc, Ended, Event, State, Status, Thread, Timer, Wait};
use emumee::scheduler::DpcPhase;
use std::collections::BTreeMap;

pub const HEADER: usize = 96;
pub const LIMITS: usize = 0;
pub const THREADS: usize = 3;
pub const OBJECTS: usize = 4;
pub const DPCS: usize = 5;
pub const CURRENT: usize = 6;
pub const SEQUENCE: usize = 7;
pub const NOW: usize = 8;
pub const READY: usize = 9;
pub const POLICY: usize = 10;
pub const TIMER_ARGUMENTS: usize = 11;
pub const ACCEPTED: usize = 13;
pub const DUPLICATES: usize = 14;
pub const REMOVED: usize = 15;
pub const STARTED: usize = 16;
pub const RETURNED: usize = 17;
pub const RESTORED: usize = 18;
pub const TIMER_INITIALIZATIONS: usize = 19;
pub const DPC_INITIALIZATIONS: usize = 20;
pub const WAITERS_FIRST: usize = 21;
pub const WAITERS_LAST: usize = 22;
pub const QUEUE_FIRST: usize = 23;
pub const QUEUE_LAST: usize = 24;
pub const ACTIVE: usize = 25;
pub const READY_FIRST: usize = 32;
pub const READY_LAST: usize = 64;

pub const THREAD_WORDS: usize = 160;
pub const PRIORITY: usize = 0;
pub const STATE: usize = 1;
pub const NEXT_READY: usize = 2;
pub const NEXT_WAITER: usize = 3;
pub const RESULT: usize = 4;
pub const STATUS: usize = 5;
pub const ALL: usize = 7;
pub const TIMED: usize = 8;
pub const DEADLINE: usize = 9;
pub const WAIT_SEQUENCE: usize = 10;
pub const COUNT: usize = 11;
pub const PLACES: usize = 32;

pub const OBJECT_WORDS: usize = 32;
pub const KEY: usize = 0;
pub const KIND: usize = 1;
pub const MANUAL: usize = 2;
pub const SIGNALED: usize = 3;
pub const OWNER: usize = 4;
pub const INSERTED: usize = 5;
pub const DUE: usize = 6;
pub const PERIOD: usize = 7;
pub const TIMER_DPC: usize = 8;
pub const ABSOLUTE: usize = 9;
pub const ARM: usize = 10;
pub const INITIALIZATION: usize = 11;
pub const TIMER_LOCATION: usize = 12;
/// How many words of a record are in use.
pub const TIMER_USED: usize = 17;

pub const DPC_WORDS: usize = 32;
pub const PHASE: usize = 1;
pub const NEXT_QUEUED: usize = 2;
pub const NAMED_BY: usize = 3;
pub const DPC_LOCATION: usize = 4;
pub const ROUTINE: usize = 9;
pub const CONTEXT: usize = 10;
pub const WORK: usize = 11;
/// How many words of work say its origin.
pub const ORIGIN_WORDS: usize = 7;
pub const DPC_USED: usize = 22;

pub fn thread_at(id: u64) -> usize {
    HEADER + THREAD_WORDS * id as usize
}

pub fn object_at(limits: Limits, index: u64) -> usize {
    256 + THREAD_WORDS * limits.threads as usize + OBJECT_WORDS * index as usize
}

pub fn dpc_at(limits: Limits, index: u64) -> usize {
    object_at(limits, limits.objects) + DPC_WORDS * index as usize
}

/// Where the object with the key stands.
pub fn find_object(words: &[u64], limits: Limits, key: u64) -> Option<usize> {
    (0..words[OBJECTS])
        .map(|index| object_at(limits, index))
        .find(|place| words[place + KEY] == key)
}

/// Where the DPC with the address stands.
pub fn find_dpc(words: &[u64], limits: Limits, address: u64) -> Option<usize> {
    (0..words[DPCS])
        .map(|index| dpc_at(limits, index))
        .find(|place| words[place + KEY] == address)
}

/// The state that the words hold, which have these limits. What no state can be is an error.
pub fn state(words: &[u64], limits: Limits) -> Result<State, String> {
    let Limits {
        threads,
        objects,
        dpcs,
    } = limits;
    if words[LIMITS..LIMITS + 3] != [threads, objects, dpcs] {
        return Err("other limits".into());
    }
    if words[THREADS] > threads || words[OBJECTS] > objects || words[DPCS] > dpcs {
        return Err("a count past its limit".into());
    }
    let Objects {
        mutexes,
        events,
        timers,
    } = objects_of(words, limits)?;
    let dpcs = dpcs_of(words, limits, &timers)?;
    let queue = queue(words, limits, &dpcs)?;
    let active = some(words[ACTIVE]);
    Ok(State {
        now: words[NOW],
        sequence: words[SEQUENCE],
        current: some(words[CURRENT]),
        threads: (1..=words[THREADS])
            .map(|id| thread(&words[thread_at(id)..]).map_err(|why| format!("thread {id}: {why}")))
            .collect::<Result<_, _>>()?,
        ready: ready(words)?,
        waiters: waiters(words)?,
        mutexes,
        events,
        timers,
        dpcs,
        next: match active {
            Some(_) => None,
            None => queue.first().copied(),
        },
        queue,
        active,
        policy: flag(words[POLICY])?
            .then_some([words[TIMER_ARGUMENTS], words[TIMER_ARGUMENTS + 1]]),
        counters: Counters {
            accepted: words[ACCEPTED],
            duplicates: words[DUPLICATES],
            removed: words[REMOVED],
            started: words[STARTED],
            returned: words[RETURNED],
            restored: words[RESTORED],
        },
        timer_initializations: words[TIMER_INITIALIZATIONS],
        dpc_initializations: words[DPC_INITIALIZATIONS],
    })
}

fn thread(record: &[u64]) -> Result<Thread, String> {
    let status = match record[STATE] {
        1 => Status::Running,
        2 => Status::Ready,
        3 => Status::Waiting(wait(record)?),
        4 => Status::Exited(record[STATUS]),
        other => return Err(format!("state {other}")),
    };
    Ok(Thread {
        priority: record[PRIORITY],
        status,
        result: match record[RESULT] {
            0 => None,
            1 => Some(Ended::Timeout),
            result => Some(Ended::Satisfied(result - 2)),
        },
    })
}

fn wait(record: &[u64]) -> Result<Wait, String> {
    let places = record[COUNT].min(65) as usize;
    Ok(Wait {
        list: record[PLACES..PLACES + 2 * places].to_vec(),
        all: flag(record[ALL])?,
        deadline: flag(record[TIMED])?.then_some(record[DEADLINE]),
        sequence: record[WAIT_SEQUENCE],
    })
}

fn waiters(words: &[u64]) -> Result<Vec<u64>, String> {
    let link = |id| words[thread_at(id) + NEXT_WAITER];
    chain(words, (WAITERS_FIRST, WAITERS_LAST), words[THREADS], link)
        .ok_or("no chain of waiters".into())
}

fn ready(words: &[u64]) -> Result<Vec<(u64, Vec<u64>)>, String> {
    let link = |id| words[thread_at(id) + NEXT_READY];
    let mut queues = Vec::new();
    for priority in 1..32 {
        let ends = (READY_FIRST + priority, READY_LAST + priority);
        let queue = chain(words, ends, words[THREADS], link)
            .ok_or(format!("no chain of ready threads at {priority}"))?;
        if (words[READY] >> priority & 1 == 1) == queue.is_empty() {
            return Err(format!("ready word {:#x}, queue {queue:?}", words[READY]));
        }
        if !queue.is_empty() {
            queues.push((priority as u64, queue));
        }
    }
    if words[READY] >> 32 != 0 || words[READY] & 1 != 0 {
        return Err(format!("ready word {:#x}", words[READY]));
    }
    Ok(queues)
}

#[derive(Default)]
struct Objects {
    mutexes: Vec<(u64, Option<u64>)>,
    events: Vec<Event>,
    timers: Vec<Timer>,
}

fn objects_of(words: &[u64], limits: Limits) -> Result<Objects, String> {
    let mut objects = Objects::default();
    let start = object_at(limits, 0);
    let records = words[start..object_at(limits, words[OBJECTS])].chunks_exact(OBJECT_WORDS);
    for record in records {
        let key = record[KEY];
        match record[KIND] {
            0 => objects.mutexes.push((key, some(record[OWNER]))),
            1 => objects.events.push(Event {
                key,
                manual: flag(record[MANUAL])?,
                signaled: flag(record[SIGNALED])?,
            }),
            2 => objects.timers.push(timer(record)?),
            kind => return Err(format!("object {key}: kind {kind}")),
        }
    }
    Ok(objects)
}

fn timer(record: &[u64]) -> Result<Timer, String> {
    let address = record[KEY];
    let (architecture, backing) = record::location(&record[TIMER_LOCATION..])
        .ok_or(format!("timer {address}: no location"))?;
    Ok(Timer {
        address,
        architecture,
        backing,
        manual: flag(record[MANUAL])?,
        signaled: flag(record[SIGNALED])?,
        inserted: flag(record[INSERTED])?,
        due: record[DUE],
        period: record[PERIOD],
        dpc: record[TIMER_DPC],
        absolute: flag(record[ABSOLUTE])?,
        arm: record[ARM],
        initialization: record[INITIALIZATION],
    })
}

/// Each record must name the inserted timer that has the DPC.
fn dpcs_of(words: &[u64], limits: Limits, timers: &[Timer]) -> Result<Vec<Dpc>, String> {
    let start = dpc_at(limits, 0);
    let records = words[start..dpc_at(limits, words[DPCS])].chunks_exact(DPC_WORDS);
    let owners: BTreeMap<u64, u64> = timers
        .iter()
        .filter(|timer| timer.inserted && timer.dpc != 0)
        .map(|timer| (timer.dpc, timer.address))
        .collect();
    records
        .map(|record| {
            let named = owners.get(&record[KEY]).copied().unwrap_or(0);
            if record[NAMED_BY] != named {
                let (address, by) = (record[KEY], record[NAMED_BY]);
                return Err(format!("DPC {address} is named by {by} and not by {named}"));
            }
            dpc(record).ok_or(format!("DPC {}: no location, phase or work", record[KEY]))
        })
        .collect()
}

fn dpc(record: &[u64]) -> Option<Dpc> {
    let (architecture, backing) = record::location(&record[DPC_LOCATION..])?;
    Some(Dpc {
        address: record[KEY],
        architecture,
        backing,
        routine: record[ROUTINE],
        context: record[CONTEXT],
        phase: record::phase(record[PHASE], || record::work(&record[WORK..]))?,
    })
}

/// The addresses of the queued DPCs, which are those that the chain holds.
fn queue(words: &[u64], limits: Limits, dpcs: &[Dpc]) -> Result<Vec<u64>, String> {
    let link = |number| words[dpc_at(limits, number - 1) + NEXT_QUEUED];
    let numbers = chain(words, (QUEUE_FIRST, QUEUE_LAST), words[DPCS], link)
        .ok_or("no chain of queued DPCs")?;
    let is_queued = |dpc: &&Dpc| matches!(dpc.phase, DpcPhase::Queued(_));
    let members: Vec<&Dpc> = numbers.iter().map(|n| &dpcs[*n as usize - 1]).collect();
    if !members.iter().all(is_queued) || members.len() != dpcs.iter().filter(is_queued).count() {
        return Err(format!("queue {numbers:?} of other DPCs than the queued"));
    }
    Ok(members.into_iter().map(|dpc| dpc.address).collect())
}

/// The numbers of a chain, which go from 1 to `most`; nothing where it does not end, or its last is
/// another. `ends` says where the first and the last stand.
pub fn chain(
    words: &[u64],
    ends: (usize, usize),
    most: u64,
    link: impl Fn(u64) -> u64,
) -> Option<Vec<u64>> {
    let mut chain = Vec::new();
    let mut next = words[ends.0];
    while next != 0 {
        if next > most || chain.len() as u64 == most {
            return None;
        }
        chain.push(next);
        next = link(next);
    }
    (words[ends.1] == chain.last().copied().unwrap_or(0)).then_some(chain)
}

fn some(word: u64) -> Option<u64> {
    (word != 0).then_some(word)
}

fn flag(word: u64) -> Result<bool, String> {
    match word {
        0 => Ok(false),
        1 => Ok(true),
        _ => Err(format!("{word} is neither 0 nor 1")),
    }
}
