//! A scheduler on both sides, and one step of its history.
use super::put::Put;
use crate::scheduler::answer::{self, Answer};
use crate::scheduler::proved::proved;
use crate::scheduler::reference::{Lengths, Reference};
use crate::scheduler::refusals::FORM;
use crate::scheduler::room::{Room, UNUSED};
use crate::scheduler::state::State;
use crate::scheduler::{Call, Limits, form, words};
use std::fmt;

/// The most words that are lent past those needed.
const TAIL: usize = 5;

/// What happens to a scheduler.
#[derive(Clone)]
pub enum Step {
    Call {
        call: Call,
        lent: Lengths,
    },
    Put(Put),
    /// A word of the proved scheduler is changed. Where the words stay in form, the original is made
    /// anew with the state that they hold.
    Word {
        place: usize,
        value: u64,
    },
}

impl fmt::Display for Step {
    fn fmt(&self, f: &mut fmt::Formatter<'_>) -> fmt::Result {
        match self {
            Self::Call { call, lent } => write!(f, "{call:?}, {lent:?}"),
            Self::Put(put) => write!(f, "put on both sides: {put:?}"),
            Self::Word { place, value } => write!(f, "word {place} put to {value}"),
        }
    }
}

#[derive(Clone)]
pub struct Both {
    reference: Reference,
    /// The state after the last step; words out of form have the state before.
    state: State,
    /// The clause that the words break.
    fault: Option<&'static str>,
    /// The proved scheduler, with unused words after it, and the same as the last step left it.
    words: Vec<u64>,
    before: Vec<u64>,
}

impl Both {
    /// The original is open, the proved scheduler is not.
    pub fn new(limits: Limits) -> Self {
        let mut reference = Reference::new(1, limits);
        let words = vec![UNUSED; limits.words() + TAIL];
        Self {
            state: reference.state(),
            reference,
            fault: None,
            before: words.clone(),
            words,
        }
    }

    pub fn state(&self) -> &State {
        &self.state
    }

    pub fn fault(&self) -> Option<&'static str> {
        self.fault
    }

    pub fn limits(&self) -> Limits {
        self.reference.limits()
    }

    pub fn words(&self) -> &[u64] {
        &self.words
    }

    pub fn message(&self) -> Option<&'static str> {
        self.reference.message()
    }

    /// What a call answered; nothing for another step. A difference is an error.
    pub fn step(&mut self, step: &Step) -> Result<Option<Answer>, String> {
        match step {
            Step::Call { call, lent } => return self.call(call, *lent).map(Some),
            Step::Put(put) => {
                let limits = self.limits();
                if put.fits(&self.state) {
                    put.on_original(self.reference.scheduler_mut());
                    put.on_words(&mut self.words, limits);
                    self.state = self.reference.state();
                }
            }
            Step::Word { place, value } => {
                self.words[*place] = *value;
                self.set_original()?;
            }
        }
        self.before.copy_from_slice(&self.words);
        Ok(None)
    }

    fn set_original(&mut self) -> Result<(), String> {
        let used = &self.words[..self.limits().words()];
        self.fault = form::fault(used);
        if self.fault.is_none() {
            let limits = Limits::new(used[0], used[1], used[2]);
            self.state = words::state(used, limits)
                .map_err(|why| format!("words in form hold no state: {why}"))?;
            self.reference = Reference::with_state(&self.state, limits);
        }
        Ok(())
    }

    fn call(&mut self, call: &Call, lent: Lengths) -> Result<Answer, String> {
        let expected = match self.fault {
            Some(_) if !call.opens() => Ok(Answer::Refused(FORM)),
            _ => self.reference.call(call, lent),
        };
        let mut room = Room::unused();
        let number = proved(room.lent(&mut self.words, lent), call);
        let expected = expected?;
        let cleared = if number == 0 { answer::WORDS } else { 0 };
        if number != expected.number()
            || !room.has_answer(&expected.words(), cleared)
            || !room.has_waiting(expected.waiting())
            || !room.has_image(expected.image())
        {
            let proved = Answer::read(call, number, &room);
            let written = room.written();
            return Err(format!(
                "expected {expected:?}\nproved   {number} {written:?} {proved:?}"
            ));
        }
        if matches!(call, Call::Open { .. }) && number == 0 {
            self.fault = None;
        }
        self.compare(call.reads() || number != 0)?;
        Ok(expected)
    }

    /// The words against the original's state, and against the words before the call.
    fn compare(&mut self, is_unchanged: bool) -> Result<(), String> {
        let limits = self.limits();
        let kept = if is_unchanged { 0 } else { limits.words() };
        if self.words[kept..] != self.before[kept..] {
            let changed = |place: &usize| self.words[*place] != self.before[*place];
            let places: Vec<usize> = (kept..self.words.len()).filter(changed).collect();
            return Err(format!("words that must stay are changed: {places:?}"));
        }
        if !is_unchanged {
            self.state = words::state(&self.words, limits)
                .map_err(|why| format!("the proved words hold no state: {why}"))?;
            self.before[..kept].copy_from_slice(&self.words[..kept]);
        }
        if self.fault.is_none() && self.state != self.reference.state() {
            return Err("the states differ".to_string());
        }
        Ok(())
    }

    /// Both states.
    pub fn told(&mut self) -> String {
        let proved = match words::state(&self.words, self.limits()) {
            Ok(state) => state.to_string(),
            Err(why) => format!("none: {why}\n"),
        };
        let original = self.reference.state();
        format!("proved state\n{proved}original state\n{original}")
    }
}
