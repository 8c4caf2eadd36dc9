//! A thread as a record.
use super::flag;
use crate::scheduler::state::{Ended, Status, Thread};

/// What is said of its exit and of its wait is there only where it has one.
#[derive(Clone, Debug, PartialEq, Eq)]
pub struct ThreadView {
    pub id: u64,
    pub priority: u64,
    pub state: u64,
    pub result: u64,
    pub status: Option<u64>,
    pub wait: Option<WaitView>,
}

#[derive(Clone, Debug, PartialEq, Eq)]
pub struct WaitView {
    pub all: bool,
    pub deadline: Option<u64>,
    pub sequence: u64,
    pub count: u64,
}

/// The states of a thread as numbers.
pub const RUNNING: u64 = 1;
pub const READY: u64 = 2;
pub const WAITING: u64 = 3;
pub const EXITED: u64 = 4;

impl ThreadView {
    pub fn new(id: u64, thread: &Thread) -> Self {
        let (state, status, wait) = match &thread.status {
            Status::Running => (RUNNING, None, None),
            Status::Ready => (READY, None, None),
            Status::Waiting(wait) => {
                let wait = WaitView {
                    all: wait.all,
                    deadline: wait.deadline,
                    sequence: wait.sequence,
                    count: wait.list.len() as u64 / 2,
                };
                (WAITING, None, Some(wait))
            }
            Status::Exited(status) => (EXITED, Some(*status), None),
        };
        Self {
            id,
            priority: thread.priority,
            state,
            result: match thread.result {
                None => 0,
                Some(Ended::Timeout) => 1,
                Some(Ended::Satisfied(index)) => index + 2,
            },
            status,
            wait,
        }
    }

    /// The words of a wait are 0 where it has none.
    pub(super) fn words(&self) -> Vec<Option<u64>> {
        let wait = |word: fn(&WaitView) -> Option<u64>| self.wait.as_ref().map_or(Some(0), word);
        let known = [20, self.id, self.priority, self.state, self.result];
        let mut words: Vec<Option<u64>> = known.into_iter().map(Some).collect();
        words.extend([
            self.status,
            wait(|wait| Some(wait.all.into())),
            wait(|wait| Some(wait.deadline.is_some().into())),
            wait(|wait| wait.deadline),
            wait(|wait| Some(wait.sequence)),
            wait(|wait| Some(wait.count)),
        ]);
        words
    }

    pub(super) fn read(words: &[u64]) -> Option<Self> {
        let [id, priority, state, result, ..] = *words else {
            return None;
        };
        let waiting = || {
            Some(WaitView {
                all: flag(words[5])?,
                deadline: flag(words[6])?.then_some(words[7]),
                sequence: words[8],
                count: words[9],
            })
        };
        Some(Self {
            id,
            priority,
            state,
            result,
            status: (state == EXITED).then_some(words[4]),
            wait: match state {
                WAITING => Some(waiting()?),
                RUNNING | READY | EXITED => None,
                _ => return None,
            },
        })
    }
}
