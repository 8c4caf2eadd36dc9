//! Threads, waits, mutexes, events and dispatch.
mod dpc;
mod lent;
mod timers;

use crate::ffi::*;
pub use dpc::{DPC_WORK_LIMIT, DpcCounters, DpcOrigin, DpcPhase, DpcPolicy, DpcWork};
use lent::{Out, Record, Result, flag, some};
use std::fmt;
pub use timers::{Dpc, TIMER_LIFETIME_LIMIT, Timer, TimerBacking};

pub type ThreadId = u64;

#[derive(Clone, Copy, Debug, PartialEq, Eq, PartialOrd, Ord)]
pub enum Object {
    Mutex(u64),
    Event(u64),
    Timer(u64),
    Thread(ThreadId),
}

impl Object {
    fn pair(self) -> [u64; 2] {
        match self {
            Self::Mutex(key) => [0, key],
            Self::Event(key) => [1, key],
            Self::Timer(key) => [2, key],
            Self::Thread(id) => [3, id],
        }
    }

    fn of(kind: u64, key: u64) -> Self {
        match kind {
            0 => Self::Mutex(key),
            1 => Self::Event(key),
            2 => Self::Timer(key),
            _ => Self::Thread(key),
        }
    }
}

#[derive(Clone, Debug, PartialEq, Eq)]
pub enum WaitResult {
    Satisfied(usize),
    Timeout,
}

#[derive(Clone, Debug)]
pub enum ThreadState {
    Running,
    Ready,
    Waiting {
        objects: Vec<Object>,
        all: bool,
        deadline: Option<u64>,
        sequence: u64,
    },
    Exited {
        status: u32,
    },
}

#[derive(Clone, Debug)]
pub struct Thread {
    pub id: ThreadId,
    pub priority: u8,
    pub state: ThreadState,
    pub wait_result: Option<WaitResult>,
}

/// A refusal, by its number in document 01's table.
#[derive(Clone, Copy, Debug, PartialEq, Eq)]
pub struct SchedulerError(pub u64);

impl SchedulerError {
    pub fn number(self) -> u64 {
        self.0
    }

    pub fn message(self) -> &'static str {
        match self.0 {
            1 => "the priority is outside 1 to 31",
            2 => "there is no such thread, object or DPC",
            3 => "no thread runs",
            4 => "the table is full, or the key is 0",
            5 => "the key is one of another kind",
            6 => "it is owned, inserted or waited on",
            7 => "the list has none, over 64, or one twice",
            8 => "the mutex is the caller's own",
            9 => "the IRQL is over 1",
            10 => "the owner is another, or none that lives, or would exit",
            11 => "the thread has exited",
            12 => "time goes back",
            13 => "a due passes 2^64 - 1",
            14 => "65,536 initializations or acceptances have been",
            15 => "a timer or a DPC cannot stand there",
            16 => "the bytes are another's too",
            17 => "the period is negative",
            18 => "an inserted timer has the DPC",
            19 => "the DPC is queued, runs or returns",
            20 => "the policy is missing, or cannot be chosen",
            21 => "the queued work has another origin",
            22 => "it is not the head of the queue, or has another phase or sequence",
            23 => "the memory cannot be given back",
            24 => "a count is at 2^64 - 1",
            27 => "the limits are bad, or the words are out of form",
            _ => "no refusal",
        }
    }
}

impl fmt::Display for SchedulerError {
    fn fmt(&self, f: &mut fmt::Formatter<'_>) -> fmt::Result {
        write!(f, "Kernel scheduler: {} ({})", self.message(), self.0)
    }
}

impl std::error::Error for SchedulerError {}

#[derive(Debug, PartialEq, Eq)]
pub enum Dispatch {
    /// Declared, and never given.
    Dpc,
    Run(ThreadId),
    AdvanceTo(u64),
    Deadlocked(Vec<ThreadId>),
    Finished,
}

#[derive(Debug, PartialEq, Eq)]
pub enum WaitOutcome {
    Immediate(WaitResult),
    Blocked,
}

/// How many threads (1 to 256), objects and DPCs (0 to 4096 each) there may be.
#[derive(Clone, Copy, Debug, PartialEq, Eq)]
pub struct Limits {
    pub threads: u64,
    pub objects: u64,
    pub dpcs: u64,
}

impl Limits {
    /// The Rust bench's own.
    pub const MOST: Self = Self {
        threads: 256,
        objects: 4096,
        dpcs: 4096,
    };
}

/// The words are those that the proved calls are lent; nothing else touches them.
#[derive(Clone)]
pub struct Scheduler {
    words: Vec<u64>,
    threads: usize,
}

impl Scheduler {
    pub fn new(root_priority: u8) -> Result<Self> {
        Self::with_limits(root_priority, Limits::MOST)
    }

    pub fn with_limits(root_priority: u8, limits: Limits) -> Result<Self> {
        let Limits {
            threads: t,
            objects: k,
            dpcs: d,
        } = limits;
        let mut scheduler = Self {
            words: Vec::new(),
            threads: t as usize,
        };
        // SAFETY: `out` has `m` words.
        let needed: Result<Out> =
            scheduler.read(|_, _, o, m| unsafe { scheduler_words_needed(t, k, d, o, m) });
        // Bad limits get no words: `open` refuses them, but a bad priority first.
        scheduler.words = vec![0; needed.map_or(0, |out| out[1] as usize)];
        let priority = root_priority.into();
        // SAFETY: as in every call below, `w` has `n` words and `o` has `m`, apart from each other.
        let _: Out = scheduler
            .change(|w, n, o, m| unsafe { scheduler_open(w, n, priority, t, k, d, o, m) })?;
        Ok(scheduler)
    }

    pub fn current(&self) -> Option<ThreadId> {
        some(self.always(|w, n, o, m| unsafe { scheduler_current(w, n, o, m) }))
    }

    pub fn event_states(&self) -> impl Iterator<Item = (u64, bool, bool)> + '_ {
        (0..).map_while(|position| {
            let out: Out =
                self.always(|w, n, o, m| unsafe { scheduler_event_states(w, n, position, o, m) });
            event(out)
        })
    }

    pub fn event_state(&self, key: u64) -> Result<(bool, bool)> {
        let out: Out = self.read(|w, n, o, m| unsafe { scheduler_event_state(w, n, key, o, m) })?;
        event(out)
            .map(|(_, manual, signaled)| (manual, signaled))
            .ok_or(SchedulerError(lent::UNKNOWN))
    }

    pub fn require_event_release(&self, base: u64, size: u64, layout: u64) -> Result<()> {
        let _: Out = self.read(|w, n, o, m| unsafe {
            scheduler_require_event_release(w, n, base, size, layout, o, m)
        })?;
        Ok(())
    }

    pub fn retire_event_backing(&mut self, base: u64, size: u64, layout: u64) -> Result<()> {
        let _: Out = self.change(|w, n, o, m| unsafe {
            scheduler_retire_event_backing(w, n, base, size, layout, o, m)
        })?;
        Ok(())
    }

    pub fn threads(&self) -> impl Iterator<Item = Thread> + '_ {
        (0..).map_while(|position| {
            let out = self.always(|w, n, o, m| unsafe { scheduler_threads(w, n, position, o, m) });
            self.thread_of(out)
        })
    }

    pub fn thread(&self, id: ThreadId) -> Option<Thread> {
        self.thread_of(self.always(|w, n, o, m| unsafe { scheduler_thread(w, n, id, o, m) }))
    }

    fn thread_of(&self, out: Record) -> Option<Thread> {
        let [
            tag,
            id,
            priority,
            state,
            result,
            status,
            all,
            timed,
            deadline,
            sequence,
            count,
            ..,
        ] = out;
        (tag != lent::NONE).then(|| Thread {
            id,
            priority: priority as u8,
            state: match state {
                1 => ThreadState::Running,
                2 => ThreadState::Ready,
                3 => ThreadState::Waiting {
                    objects: (0..count)
                        .map(|position| self.waited_object(id, position))
                        .collect(),
                    all: all != 0,
                    deadline: (timed != 0).then_some(deadline),
                    sequence,
                },
                _ => ThreadState::Exited {
                    status: status as u32,
                },
            },
            wait_result: match result {
                0 => None,
                1 => Some(WaitResult::Timeout),
                _ => Some(WaitResult::Satisfied(result as usize - 2)),
            },
        })
    }

    fn waited_object(&self, id: ThreadId, position: u64) -> Object {
        let [_, kind, key, ..]: Record =
            self.always(|w, n, o, m| unsafe { scheduler_waited_object(w, n, id, position, o, m) });
        Object::of(kind, key)
    }

    pub fn mutex_owner(&self, key: u64) -> Result<Option<ThreadId>> {
        self.read(|w, n, o, m| unsafe { scheduler_mutex_owner(w, n, key, o, m) })
            .map(some)
    }

    pub fn adopt_mutex(&mut self, key: u64, owner: Option<ThreadId>) -> Result<()> {
        let (owned, owner) = (owner.is_some().into(), owner.unwrap_or(0));
        let _: Out = self
            .change(|w, n, o, m| unsafe { scheduler_adopt_mutex(w, n, key, owned, owner, o, m) })?;
        Ok(())
    }

    pub fn mutex_waiters(&self, key: u64) -> usize {
        let [_, count, ..]: Out =
            self.always(|w, n, o, m| unsafe { scheduler_mutex_waiters(w, n, key, o, m) });
        count as usize
    }

    pub fn create_thread(&mut self, priority: u8) -> Result<ThreadId> {
        let [_, id, ..]: Out = self
            .change(|w, n, o, m| unsafe { scheduler_create_thread(w, n, priority.into(), o, m) })?;
        Ok(id)
    }

    pub fn priority(&mut self, id: ThreadId, priority: u8) -> Result<()> {
        let _: Out = self
            .change(|w, n, o, m| unsafe { scheduler_priority(w, n, id, priority.into(), o, m) })?;
        Ok(())
    }

    pub fn initialize_mutex(&mut self, key: u64) -> Result<()> {
        let _: Out =
            self.change(|w, n, o, m| unsafe { scheduler_initialize_mutex(w, n, key, o, m) })?;
        Ok(())
    }

    pub fn initialize_event(&mut self, key: u64, manual_reset: bool, signaled: bool) -> Result<()> {
        let _: Out = self.change(|w, n, o, m| unsafe {
            scheduler_initialize_event(w, n, key, manual_reset.into(), signaled.into(), o, m)
        })?;
        Ok(())
    }

    pub fn wait(
        &mut self,
        objects: &[Object],
        all: bool,
        deadline: Option<u64>,
        irql: u8,
    ) -> Result<WaitOutcome> {
        let list: Vec<u64> = objects.iter().copied().flat_map(Object::pair).collect();
        let (timed, deadline) = (deadline.is_some().into(), deadline.unwrap_or(0));
        let (l, k) = (list.as_ptr(), list.len());
        // SAFETY: `l` has `k` words too, apart from the others.
        self.change(|w, n, o, m| unsafe {
            scheduler_wait(w, n, l, k, all.into(), timed, deadline, irql, o, m)
        })
        .map(waited)
    }

    pub fn delay_until(&mut self, deadline: u64, irql: u8) -> Result<WaitOutcome> {
        self.change(|w, n, o, m| unsafe { scheduler_delay_until(w, n, deadline, irql, o, m) })
            .map(waited)
    }

    pub fn advance_to(&mut self, now: u64) -> Result<()> {
        let _: Out = self.change(|w, n, o, m| unsafe { scheduler_advance_to(w, n, now, o, m) })?;
        Ok(())
    }

    pub fn release_mutex(&mut self, key: u64) -> Result<()> {
        let _: Out =
            self.change(|w, n, o, m| unsafe { scheduler_release_mutex(w, n, key, o, m) })?;
        Ok(())
    }

    pub fn set_event(&mut self, key: u64) -> Result<bool> {
        self.change(|w, n, o, m| unsafe { scheduler_set_event(w, n, key, o, m) })
            .map(flag)
    }

    pub fn reset_event(&mut self, key: u64) -> Result<bool> {
        self.change(|w, n, o, m| unsafe { scheduler_reset_event(w, n, key, o, m) })
            .map(flag)
    }

    pub fn yield_current(&mut self) -> Result<()> {
        let _: Out = self.change(|w, n, o, m| unsafe { scheduler_yield_current(w, n, o, m) })?;
        Ok(())
    }

    pub fn terminate(&mut self, status: u32) -> Result<()> {
        let _: Out =
            self.change(|w, n, o, m| unsafe { scheduler_terminate(w, n, status, o, m) })?;
        Ok(())
    }

    pub fn dispatch(&mut self) -> Dispatch {
        let mut waiting = vec![0; self.threads];
        let (l, k) = (waiting.as_mut_ptr(), waiting.len());
        // SAFETY: `l` has `k` words too, apart from the others.
        let [tag, value, ..]: Out = self
            .change(|w, n, o, m| unsafe { scheduler_dispatch(w, n, l, k, o, m) })
            .expect("words in form");
        match tag {
            lent::RUN => Dispatch::Run(value),
            lent::ADVANCE_TO => Dispatch::AdvanceTo(value),
            lent::DEADLOCKED => {
                waiting.truncate(value as usize);
                Dispatch::Deadlocked(waiting)
            }
            lent::FINISHED => Dispatch::Finished,
            _ => unreachable!("no answer of a dispatch"),
        }
    }
}

fn event([tag, key, manual, signaled]: Out) -> Option<(u64, bool, bool)> {
    (tag != lent::NONE).then_some((key, manual != 0, signaled != 0))
}

fn waited([tag, index, ..]: Out) -> WaitOutcome {
    match tag {
        lent::SATISFIED => WaitOutcome::Immediate(WaitResult::Satisfied(index as usize)),
        lent::TIMEOUT => WaitOutcome::Immediate(WaitResult::Timeout),
        lent::BLOCKED => WaitOutcome::Blocked,
        _ => unreachable!("no answer of a wait"),
    }
}
