//! The whole visible state of a scheduler, as either side gives it.
use emumee::pe::Architecture;
use emumee::scheduler::{DpcPhase, TimerBacking};
use std::fmt;

#[derive(Clone, Debug, PartialEq, Eq)]
pub struct State {
    pub now: u64,
    /// The next wait sequence.
    pub sequence: u64,
    pub current: Option<u64>,
    /// By number, from 1 on.
    pub threads: Vec<Thread>,
    /// The queues that are not empty, by rising priority, each first to last.
    pub ready: Vec<(u64, Vec<u64>)>,
    /// The waiting threads by wait sequence.
    pub waiters: Vec<u64>,
    /// Keys and owners, by rising key.
    pub mutexes: Vec<(u64, Option<u64>)>,
    /// By rising key.
    pub events: Vec<Event>,
    /// By rising address.
    pub timers: Vec<Timer>,
    pub dpcs: Vec<Dpc>,
    /// The addresses of the queued DPCs, first to last.
    pub queue: Vec<u64>,
    /// The DPC that runs or returns, and the one that may start.
    pub active: Option<u64>,
    pub next: Option<u64>,
    /// The two arguments of a timer's work.
    pub policy: Option<[u64; 2]>,
    pub counters: Counters,
    pub timer_initializations: u64,
    pub dpc_initializations: u64,
}

#[derive(Clone, Debug, PartialEq, Eq)]
pub struct Thread {
    pub priority: u64,
    pub status: Status,
    pub result: Option<Ended>,
}

#[derive(Clone, Debug, PartialEq, Eq)]
pub enum Status {
    Running,
    Ready,
    Waiting(Wait),
    Exited(u64),
}

/// How a thread's last wait ended.
#[derive(Clone, Copy, Debug, PartialEq, Eq)]
pub enum Ended {
    Timeout,
    Satisfied(u64),
}

#[derive(Clone, Debug, PartialEq, Eq)]
pub struct Wait {
    /// Pairs of a kind and a key.
    pub list: Vec<u64>,
    pub all: bool,
    pub deadline: Option<u64>,
    pub sequence: u64,
}

#[derive(Clone, Copy, Debug, PartialEq, Eq)]
pub struct Event {
    pub key: u64,
    pub manual: bool,
    pub signaled: bool,
}

#[derive(Clone, Copy, Debug, PartialEq, Eq)]
pub struct Timer {
    pub address: u64,
    pub architecture: Architecture,
    pub backing: TimerBacking,
    pub manual: bool,
    pub signaled: bool,
    pub inserted: bool,
    pub due: u64,
    /// In milliseconds.
    pub period: u64,
    pub dpc: u64,
    pub absolute: bool,
    pub arm: u64,
    pub initialization: u64,
}

#[derive(Clone, Debug, PartialEq, Eq)]
pub struct Dpc {
    pub address: u64,
    pub architecture: Architecture,
    pub backing: TimerBacking,
    pub routine: u64,
    pub context: u64,
    pub phase: DpcPhase,
}

/// How much work of DPCs was accepted, and what became of it.
#[derive(Clone, Copy, Debug, PartialEq, Eq)]
pub struct Counters {
    pub accepted: u64,
    pub duplicates: u64,
    pub removed: u64,
    pub started: u64,
    pub returned: u64,
    pub restored: u64,
}

/// The bytes that a timer and a DPC take.
pub fn timer_size(architecture: Architecture) -> u64 {
    match architecture {
        Architecture::X64 => 64,
        Architecture::X86 => 40,
    }
}

pub fn dpc_size(architecture: Architecture) -> u64 {
    match architecture {
        Architecture::X64 => 64,
        Architecture::X86 => 32,
    }
}

impl State {
    /// How many objects there are of all kinds.
    pub fn objects(&self) -> u64 {
        (self.mutexes.len() + self.events.len() + self.timers.len()) as u64
    }

    pub fn inserted(&self) -> impl Iterator<Item = &Timer> {
        self.timers.iter().filter(|timer| timer.inserted)
    }

    /// The kinds and keys that a waiting thread waits for.
    pub fn waited(&self, id: u64) -> Option<&[u64]> {
        let index = usize::try_from(id).ok()?.checked_sub(1)?;
        match &self.threads.get(index)?.status {
            Status::Waiting(wait) => Some(&wait.list),
            _ => None,
        }
    }

    /// Whether there is such a thread, and it does not wait.
    pub fn is_not_waiting(&self, id: u64) -> bool {
        (1..=self.threads.len() as u64).contains(&id) && self.waited(id).is_none()
    }

    pub fn dpc(&self, address: u64) -> Option<&Dpc> {
        self.dpcs.iter().find(|dpc| dpc.address == address)
    }

    /// Whether the policy can still be chosen.
    pub fn is_new(&self) -> bool {
        self.policy.is_none()
            && self.threads.len() == 1
            && self.current == Some(1)
            && (self.sequence, self.now, self.objects()) == (0, 0, 0)
            && self.dpcs.is_empty()
    }

    pub fn waits(&self) -> impl Iterator<Item = &Wait> {
        self.threads
            .iter()
            .filter_map(|thread| match &thread.status {
                Status::Waiting(wait) => Some(wait),
                _ => None,
            })
    }

    /// Whether only a thread more, a set event, a set timer or an opening brings it on.
    pub fn is_stuck(&self) -> bool {
        self.current.is_none()
            && self.ready.is_empty()
            && self.waits().all(|wait| wait.deadline.is_none())
            && self.inserted().next().is_none()
    }
}

impl fmt::Display for State {
    fn fmt(&self, f: &mut fmt::Formatter<'_>) -> fmt::Result {
        let State { now, sequence, .. } = self;
        writeln!(
            f,
            "now {now}, sequence {sequence}, current {:?}",
            self.current
        )?;
        for (index, thread) in self.threads.iter().enumerate() {
            let Thread {
                priority,
                status,
                result,
            } = thread;
            writeln!(
                f,
                "thread {}: priority {priority}, {status:?}, result {result:?}",
                index + 1
            )?;
        }
        for (priority, queue) in &self.ready {
            writeln!(f, "ready {priority}: {queue:?}")?;
        }
        writeln!(f, "waiters: {:?}", self.waiters)?;
        for (key, owner) in &self.mutexes {
            writeln!(f, "mutex {key}: owner {owner:?}")?;
        }
        for event in &self.events {
            writeln!(f, "{event:?}")?;
        }
        for timer in &self.timers {
            writeln!(f, "{timer:?}")?;
        }
        for dpc in &self.dpcs {
            writeln!(f, "{dpc:?}")?;
        }
        writeln!(
            f,
            "DPC queue {:?}, active {:?}, next {:?}, policy {:?}, {:?}",
            self.queue, self.active, self.next, self.policy, self.counters
        )?;
        writeln!(
            f,
            "initializations: timers {}, DPCs {}",
            self.timer_initializations, self.dpc_initializations
        )
    }
}
