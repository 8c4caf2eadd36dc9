//! Timers, DPCs and their work in the words of a record.
use super::flag;
use crate::scheduler::state::{Dpc, Timer};
use emumee::pe::Architecture;
use emumee::scheduler::{DpcOrigin, DpcPhase, DpcWork, TimerBacking};

/// An architecture and a backing take five words.
const LOCATION: usize = 5;

fn architecture_word(architecture: Architecture) -> u64 {
    match architecture {
        Architecture::X64 => 0,
        Architecture::X86 => 1,
    }
}

/// The kind of a backing, its base, its size and the mapped bytes, which an image does not have.
pub fn backing_words(backing: TimerBacking) -> [u64; 4] {
    match backing {
        TimerBacking::Image { base, size } => [0, base, size, 0],
        TimerBacking::NonpagedPool {
            base,
            requested,
            mapped,
        } => [1, base, requested, mapped],
    }
}

fn location_words(architecture: Architecture, backing: TimerBacking) -> [u64; LOCATION] {
    let [kind, base, size, mapped] = backing_words(backing);
    [architecture_word(architecture), kind, base, size, mapped]
}

/// What the five words from the first on say.
pub fn location(words: &[u64]) -> Option<(Architecture, TimerBacking)> {
    let architecture = match *words.first()? {
        0 => Architecture::X64,
        1 => Architecture::X86,
        _ => return None,
    };
    let backing = match *words.get(1..LOCATION)? {
        [0, base, size, _] => TimerBacking::Image { base, size },
        [1, base, requested, mapped] => TimerBacking::NonpagedPool {
            base,
            requested,
            mapped,
        },
        _ => return None,
    };
    Some((architecture, backing))
}

pub fn timer_words(timer: &Timer) -> Vec<u64> {
    let mut words = vec![14, timer.address];
    words.extend(location_words(timer.architecture, timer.backing));
    words.extend([
        timer.manual.into(),
        timer.signaled.into(),
        timer.inserted.into(),
        timer.due,
        timer.period,
        timer.dpc,
        timer.absolute.into(),
        timer.arm,
        timer.initialization,
    ]);
    words
}

pub fn timer(words: &[u64]) -> Option<Timer> {
    let (architecture, backing) = location(&words[1..])?;
    Some(Timer {
        address: words[0],
        architecture,
        backing,
        manual: flag(words[6])?,
        signaled: flag(words[7])?,
        inserted: flag(words[8])?,
        due: words[9],
        period: words[10],
        dpc: words[11],
        absolute: flag(words[12])?,
        arm: words[13],
        initialization: words[14],
    })
}

pub fn dpc_words(dpc: &Dpc) -> Vec<u64> {
    let (phase, work) = match &dpc.phase {
        DpcPhase::Idle => (0, None),
        DpcPhase::Queued(work) => (1, Some(work)),
        DpcPhase::Running(work) => (2, Some(work)),
        DpcPhase::Returning(work) => (3, Some(work)),
    };
    let mut words = vec![15, dpc.address];
    words.extend(location_words(dpc.architecture, dpc.backing));
    words.extend([dpc.routine, dpc.context, phase]);
    words.extend(work.map(work_words).unwrap_or_default());
    words
}

pub fn dpc(words: &[u64]) -> Option<Dpc> {
    let (architecture, backing) = location(&words[1..])?;
    Some(Dpc {
        address: words[0],
        architecture,
        backing,
        routine: words[6],
        context: words[7],
        phase: phase(words[8], || work(&words[9..]))?,
    })
}

pub fn phase(word: u64, work: impl Fn() -> Option<DpcWork>) -> Option<DpcPhase> {
    Some(match word {
        0 => DpcPhase::Idle,
        1 => DpcPhase::Queued(work()?),
        2 => DpcPhase::Running(work()?),
        3 => DpcPhase::Returning(work()?),
        _ => return None,
    })
}

pub fn work_words(work: &DpcWork) -> Vec<u64> {
    let mut words = vec![work.sequence, work.arguments[0], work.arguments[1]];
    words.extend(origin_words(&work.origin));
    words
}

pub fn origin_words(origin: &DpcOrigin) -> Vec<u64> {
    match *origin {
        DpcOrigin::Caller => vec![0],
        DpcOrigin::Timer {
            address,
            arm,
            initialization,
            deadline,
            observed,
            periodic,
        } => vec![
            1,
            address,
            arm,
            initialization,
            deadline,
            observed,
            periodic.into(),
        ],
    }
}

/// The work that the ten words from the first on say.
pub fn work(words: &[u64]) -> Option<DpcWork> {
    let origin = match *words.get(3..10)? {
        [0, ..] => DpcOrigin::Caller,
        [
            1,
            address,
            arm,
            initialization,
            deadline,
            observed,
            periodic,
        ] => DpcOrigin::Timer {
            address,
            arm,
            initialization,
            deadline,
            observed,
            periodic: flag(periodic)?,
        },
        _ => return None,
    };
    Some(DpcWork {
        sequence: words[0],
        arguments: [words[1], words[2]],
        origin,
    })
}
