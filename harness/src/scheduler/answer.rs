//! What a call answers, and how the proved library writes it.
pub mod record;
pub mod thread;

use super::Call;
use super::room::Room;
use super::state::{Counters, Dpc, Timer};
use crate::tally::Kind;
use emumee::scheduler::{DpcOrigin, DpcPhase, DpcWork};
use thread::ThreadView;

/// `out` must have as many words, for an answer and for a record, and `bytes` as many for an image.
pub const WORDS: usize = 4;
pub const RECORD_WORDS: usize = 24;
pub const IMAGE_BYTES: usize = 64;

#[derive(Clone, Debug, PartialEq, Eq)]
pub enum Answer {
    /// The number of document 01's table.
    Refused(u64),
    Done,
    None,
    Thread(u64),
    Flag(bool),
    Count(u64),
    Satisfied(u64),
    Timeout,
    Blocked,
    Run(u64),
    AdvanceTo(u64),
    Deadlocked(Vec<u64>),
    Finished,
    Event {
        key: u64,
        manual: bool,
        signaled: bool,
    },
    Timer(Timer),
    Dpc(Dpc),
    Work(DpcWork),
    NoPolicy,
    Policy([u64; 2]),
    Counters(Counters),
    ThreadView(ThreadView),
    /// A kind and a key.
    Object([u64; 2]),
    Image(Vec<u8>),
}

impl Answer {
    /// What the function returns.
    pub fn number(&self) -> u64 {
        match self {
            Self::Refused(number) => *number,
            _ => 0,
        }
    }

    /// What `out` begins with: a tag and values, or nothing at a refusal. A value that is nothing
    /// may be any.
    pub fn words(&self) -> Vec<Option<u64>> {
        if let Self::ThreadView(thread) = self {
            return thread.words();
        }
        self.known_words().into_iter().map(Some).collect()
    }

    fn known_words(&self) -> Vec<u64> {
        match self {
            Self::Refused(_) => vec![],
            Self::Done => vec![1],
            Self::None => vec![2],
            Self::Thread(id) => vec![3, *id],
            Self::Flag(flag) => vec![4, u64::from(*flag)],
            Self::Count(count) => vec![5, *count],
            Self::Satisfied(index) => vec![6, *index],
            Self::Timeout => vec![7],
            Self::Blocked => vec![8],
            Self::Run(id) => vec![9, *id],
            Self::AdvanceTo(time) => vec![10, *time],
            Self::Deadlocked(waiting) => vec![11, waiting.len() as u64],
            Self::Finished => vec![12],
            Self::Event {
                key,
                manual,
                signaled,
            } => vec![13, *key, u64::from(*manual), u64::from(*signaled)],
            Self::Timer(timer) => record::timer_words(timer),
            Self::Dpc(dpc) => record::dpc_words(dpc),
            Self::Work(work) => [vec![16], record::work_words(work)].concat(),
            Self::NoPolicy => vec![17],
            Self::Policy([first, second]) => vec![18, *first, *second],
            Self::Counters(c) => vec![
                19,
                c.accepted,
                c.duplicates,
                c.removed,
                c.started,
                c.returned,
                c.restored,
            ],
            Self::ThreadView(_) => unreachable!("not all words are known"),
            Self::Object([kind, key]) => vec![21, *kind, *key],
            Self::Image(bytes) => vec![5, bytes.len() as u64],
        }
    }

    /// What `waiting` begins with.
    pub fn waiting(&self) -> &[u64] {
        match self {
            Self::Deadlocked(waiting) => waiting,
            _ => &[],
        }
    }

    /// What `bytes` begins with.
    pub fn image(&self) -> &[u8] {
        match self {
            Self::Image(bytes) => bytes,
            _ => &[],
        }
    }

    /// The answer that the function returned and wrote, if it is one at all.
    pub fn read(call: &Call, number: u64, room: &Room) -> Option<Self> {
        if number != 0 {
            return Some(Self::Refused(number));
        }
        Some(match room.out {
            [5, size, ..] if call.answers_image() => {
                let size = usize::try_from(size).ok()?;
                Self::Image(room.bytes.get(..size)?.to_vec())
            }
            [1, ..] => Self::Done,
            [2, ..] => Self::None,
            [3, id, ..] => Self::Thread(id),
            [4, word, ..] => Self::Flag(flag(word)?),
            [5, count, ..] => Self::Count(count),
            [6, index, ..] => Self::Satisfied(index),
            [7, ..] => Self::Timeout,
            [8, ..] => Self::Blocked,
            [9, id, ..] => Self::Run(id),
            [10, time, ..] => Self::AdvanceTo(time),
            [11, count, ..] => {
                let count = usize::try_from(count).ok()?;
                Self::Deadlocked(room.waiting.get(..count)?.to_vec())
            }
            [12, ..] => Self::Finished,
            [13, key, manual, signaled, ..] => Self::Event {
                key,
                manual: flag(manual)?,
                signaled: flag(signaled)?,
            },
            [14, ..] => Self::Timer(record::timer(&room.out[1..])?),
            [15, ..] => Self::Dpc(record::dpc(&room.out[1..])?),
            [16, ..] => Self::Work(record::work(&room.out[1..])?),
            [17, ..] => Self::NoPolicy,
            [18, first, second, ..] => Self::Policy([first, second]),
            [
                19,
                accepted,
                duplicates,
                removed,
                started,
                returned,
                restored,
                ..,
            ] => Self::Counters(Counters {
                accepted,
                duplicates,
                removed,
                started,
                returned,
                restored,
            }),
            [20, ..] => Self::ThreadView(ThreadView::read(&room.out[1..])?),
            [21, kind, key, ..] => Self::Object([kind, key]),
            _ => return None,
        })
    }

    pub fn kind(&self) -> Kind {
        Kind::Accepted(match self {
            Self::Refused(number) => return Kind::Refused(*number),
            Self::Done => "done",
            Self::None => "none",
            Self::Thread(_) | Self::ThreadView(_) => "thread",
            Self::Flag(false) => "no",
            Self::Flag(true) => "yes",
            Self::Count(_) => "count",
            Self::Satisfied(_) => "satisfied",
            Self::Timeout => "timeout",
            Self::Blocked => "blocked",
            Self::Run(_) => "run",
            Self::AdvanceTo(_) => "advance",
            Self::Deadlocked(_) => "deadlocked",
            Self::Finished => "finished",
            Self::Event { .. } => "event",
            Self::Timer(_) => "timer",
            Self::Dpc(dpc) => match dpc.phase {
                DpcPhase::Idle => "idle",
                DpcPhase::Queued(_) => "queued",
                DpcPhase::Running(_) => "running",
                DpcPhase::Returning(_) => "returning",
            },
            Self::Work(work) => match work.origin {
                DpcOrigin::Caller => "caller's work",
                DpcOrigin::Timer { .. } => "timer's work",
            },
            Self::NoPolicy => "no policy",
            Self::Policy(_) => "policy",
            Self::Counters(_) => "counters",
            Self::Object(_) => "object",
            Self::Image(_) => "image",
        })
    }
}

fn flag(word: u64) -> Option<bool> {
    (word < 2).then_some(word == 1)
}
