//! The original scheduler, and what must be answered: its answer, or document 01's where the
//! original has no such call or limit.
use super::answer::{self, Answer, IMAGE_BYTES};
use super::original::{objects, original, signed_due};
use super::refusals::{self, DUE_PAST_END, FORM, FULL, LIST, NO_CURRENT, PERIOD, PRIORITY};
use super::state::State;
use super::view;
use super::{Call, Limits};
use crate::quiet;
use emumee::scheduler::{Scheduler, SchedulerError, ThreadState};

/// How many words a call is lent of each slice.
#[derive(Clone, Copy, Debug)]
pub struct Lengths {
    pub words: usize,
    pub out: usize,
    pub waiting: usize,
    pub bytes: usize,
}

impl Lengths {
    pub fn needed(limits: Limits, call: &Call) -> Self {
        Self {
            words: limits.words(),
            out: call.out_words(),
            waiting: limits.threads as usize,
            bytes: IMAGE_BYTES,
        }
    }
}

#[derive(Clone)]
pub struct Reference {
    scheduler: Scheduler,
    limits: Limits,
    /// What the original said at the last call, if it refused it.
    message: Option<&'static str>,
}

impl Reference {
    pub fn new(priority: u8, limits: Limits) -> Self {
        Self {
            scheduler: Scheduler::new(priority).expect("a priority within the limits"),
            limits,
            message: None,
        }
    }

    /// The original with a state that calls need not lead to.
    pub fn with_state(state: &State, limits: Limits) -> Self {
        Self {
            scheduler: view::scheduler(state),
            limits,
            message: None,
        }
    }

    pub fn limits(&self) -> Limits {
        self.limits
    }

    pub fn scheduler(&self) -> &Scheduler {
        &self.scheduler
    }

    pub fn message(&self) -> Option<&'static str> {
        self.message
    }

    pub fn state(&mut self) -> State {
        view::state(&mut self.scheduler)
    }

    pub fn scheduler_mut(&mut self) -> &mut Scheduler {
        &mut self.scheduler
    }

    /// What a call with slices of these lengths must answer. A panic of the original, or a message
    /// that document 01 does not give the call, is an error.
    pub fn call(&mut self, call: &Call, lent: Lengths) -> Result<Answer, String> {
        self.message = None;
        match *call {
            Call::WordsNeeded(limits) if lent.out < answer::WORDS || limits.are_bad() => {
                return Ok(Answer::Refused(FORM));
            }
            Call::WordsNeeded(limits) => return Ok(Answer::Count(limits.words() as u64)),
            Call::Open { priority, limits } => return Ok(self.open(priority, limits, lent)),
            _ => {}
        }
        let needed = Lengths::needed(self.limits, call);
        if lent.out < needed.out
            || lent.words < needed.words
            || matches!(call, Call::Dispatch) && lent.waiting < needed.waiting
            || call.answers_image() && lent.bytes < needed.bytes
        {
            return Ok(Answer::Refused(FORM));
        }
        if let Some(number) = self.foretold(call) {
            return Ok(Answer::Refused(number));
        }
        let objects = objects(call).unwrap_or_default();
        match quiet::caught(|| original(&mut self.scheduler, call, &objects)) {
            Some(Ok(answer)) => Ok(answer),
            Some(Err(SchedulerError(message))) => {
                self.message = Some(message);
                refusals::number(call, message)
                    .map(Answer::Refused)
                    .ok_or_else(|| format!("the Rust refuses: {message}"))
            }
            None => Err("the Rust panics".to_string()),
        }
    }

    fn open(&mut self, priority: u64, limits: Limits, lent: Lengths) -> Answer {
        let scheduler = match u8::try_from(priority).map(Scheduler::new) {
            Ok(Ok(scheduler)) => scheduler,
            Ok(Err(SchedulerError(message))) => {
                self.message = Some(message);
                return Answer::Refused(PRIORITY);
            }
            Err(_) => return Answer::Refused(PRIORITY),
        };
        if limits.are_bad() || lent.words < limits.words() || lent.out < answer::WORDS {
            return Answer::Refused(FORM);
        }
        self.scheduler = scheduler;
        self.limits = limits;
        Answer::Done
    }

    /// The refusal of a call that the original cannot be given, or that only smaller limits refuse.
    pub fn foretold(&mut self, call: &Call) -> Option<u64> {
        let threads = self.scheduler.threads().count() as u64;
        let is_full = threads >= self.limits.threads && self.limits.threads < Limits::MOST.threads;
        match *call {
            Call::CreateThread { priority } | Call::Priority { priority, .. } if priority > 255 => {
                Some(PRIORITY)
            }
            Call::CreateThread { priority } if (1..=31).contains(&priority) => {
                is_full.then_some(FULL)
            }
            Call::InitializeMutex { key } | Call::InitializeEvent { key, .. } => {
                self.has_no_room(key).then_some(FULL)
            }
            Call::InitializeTimer { location, .. } => {
                self.has_no_room(location.address).then_some(FULL)
            }
            Call::InitializeDpc { location, .. } => {
                self.has_no_dpc_room(location.address).then_some(FULL)
            }
            Call::AdoptMutex { key, owned, owner } if !owned || self.is_live(owner) => {
                self.has_no_room(key).then_some(FULL)
            }
            Call::SetTimerSigned { period, .. } if period < 0 => Some(PERIOD),
            Call::SetTimerSigned { due, .. } => {
                let due = signed_due(*self.scheduler.now_mut(), due);
                due.is_none().then_some(DUE_PAST_END)
            }
            Call::Wait { .. } if objects(call).is_none() => match self.scheduler.current() {
                None => Some(NO_CURRENT),
                Some(_) => Some(LIST),
            },
            _ => None,
        }
    }

    /// Whether the key is new, and an object more passes a limit that the original does not have.
    fn has_no_room(&mut self, key: u64) -> bool {
        let events = self.scheduler.event_states().count();
        let timers = self.scheduler.timers().count();
        let objects = events + timers + self.scheduler.mutexes_mut().len();
        self.limits.objects < Limits::MOST.objects
            && objects as u64 >= self.limits.objects
            && !self.is_known(key)
    }

    /// The same of a DPC more.
    fn has_no_dpc_room(&mut self, address: u64) -> bool {
        self.limits.dpcs < Limits::MOST.dpcs
            && self.scheduler.dpcs().count() as u64 >= self.limits.dpcs
            && !self.is_known(address)
    }

    /// Whether an object of any kind or a DPC has the key.
    fn is_known(&self, key: u64) -> bool {
        self.scheduler.event_state(key).is_ok()
            || self.scheduler.mutex_owner(key).is_ok()
            || self.scheduler.timer(key).is_ok()
            || self.scheduler.dpc(key).is_ok()
    }

    fn is_live(&self, id: u64) -> bool {
        self.scheduler
            .thread(id)
            .is_some_and(|thread| !matches!(thread.state, ThreadState::Exited { .. }))
    }
}
