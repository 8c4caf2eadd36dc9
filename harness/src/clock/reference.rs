//! The original clock and what must be answered: its answer, or document 01's where the two are
//! known to differ.
use super::{
    BIAS, CONFIGURATION, Call, Configuration, FORM, MHZ, OFFSET, OVERFLOW, PENDING, TICKS,
    UNTIL_FLUSH, UPTIME, UTC, Words, in_form,
};
use crate::quiet;
use emumee::clock::{ClockError, GuestClock};

#[derive(Clone, Copy, Debug, PartialEq, Eq, PartialOrd, Ord)]
pub enum Difference {
    QpcPastWord,
    ObserveKeepsFlush,
    PendingPastWord,
}

impl Difference {
    pub fn text(self) -> &'static str {
        match self {
            Self::QpcPastWord => "qpc passes 2^64 - 1: the Rust overflows, proved 26",
            Self::ObserveKeepsFlush => {
                "observe overflows after its flush: the Rust keeps the flush, proved 26, unchanged"
            }
            Self::PendingPastWord => {
                "pending cycles pass 2^64 - 1: the Rust overflows, proved 26, unchanged"
            }
        }
    }
}

#[derive(Clone, Copy, Debug)]
pub struct Answer {
    /// 0, or the number of the refusal.
    pub number: u64,
    pub value: u64,
    pub difference: Option<Difference>,
}

impl Answer {
    pub fn done(value: u64) -> Self {
        Self {
            number: 0,
            value,
            difference: None,
        }
    }

    pub fn refused(number: u64) -> Self {
        Self {
            number,
            value: 0,
            difference: None,
        }
    }

    fn differs(difference: Difference) -> Self {
        Self {
            number: OVERFLOW,
            value: 0,
            difference: Some(difference),
        }
    }
}

/// The original beside the words that must stand on the proved side. Words out of form are held
/// here alone; the original then keeps the state before them, and answers nothing.
#[derive(Clone)]
pub struct Reference {
    clock: GuestClock,
    words: Words,
}

impl Reference {
    pub fn new() -> Self {
        let mut clock = GuestClock::new(0, 0, 0, 1).expect("a clock within the limits");
        let words = words_of(&mut clock);
        Self { clock, words }
    }

    pub fn words(&self) -> &Words {
        &self.words
    }

    pub fn put(&mut self, word: usize, value: u64) {
        self.words[word] = value;
        if in_form(&self.words) {
            store(&mut self.clock, &self.words);
        }
    }

    /// What `call` must answer. After a listed difference the original is as before the call,
    /// as is the proved clock. An overflow of the original that is not listed is an error.
    pub fn call(&mut self, call: Call) -> Result<Answer, String> {
        if !in_form(&self.words) && !matches!(call, Call::New(_)) {
            return Ok(Answer::refused(FORM));
        }
        let mut clock = self.clock.clone();
        let answer = match quiet::caught(|| original(&mut clock, call)) {
            Some(Ok(value)) => Answer::done(value),
            Some(Err(ClockError::InvalidConfiguration)) => {
                return Ok(Answer::refused(CONFIGURATION));
            }
            Some(Err(ClockError::Overflow)) => Answer::refused(OVERFLOW),
            None => {
                return overflow(&self.words, call)
                    .map(Answer::differs)
                    .ok_or_else(|| "the Rust panics".to_string());
            }
        };
        let words = words_of(&mut clock);
        if matches!(call, Call::Observe) && answer.number == OVERFLOW && words != self.words {
            return Ok(Answer::differs(Difference::ObserveKeepsFlush));
        }
        (self.clock, self.words) = (clock, words);
        Ok(answer)
    }
}

pub fn created(c: Configuration) -> Result<GuestClock, ClockError> {
    GuestClock::new(
        c.utc_filetime,
        c.uptime_ms,
        c.utc_offset_minutes,
        c.base_mhz,
    )
}

fn original(clock: &mut GuestClock, call: Call) -> Result<u64, ClockError> {
    match call {
        Call::New(configuration) => *clock = created(configuration)?,
        Call::Instruction => clock.instruction()?,
        Call::FlushCycles => clock.flush_cycles()?,
        Call::Observe => clock.observe()?,
        Call::AdvanceMicroseconds(amount) => clock.advance_microseconds(amount)?,
        Call::Advance100ns(ticks) => clock.advance_100ns(ticks)?,
        Call::AdvanceMilliseconds(amount) => clock.advance_milliseconds(amount)?,
        Call::Qpc => return Ok(clock.qpc()),
        Call::Tick64 => return Ok(clock.tick64()),
        Call::Tsc => return Ok(clock.tsc()),
    }
    Ok(0)
}

/// The listed difference where the original's sums overflow.
fn overflow(words: &Words, call: Call) -> Option<Difference> {
    let qpc = u128::from(words[UPTIME]) * 10_000 + u128::from(words[TICKS]);
    match call {
        Call::Qpc | Call::Tsc if qpc > u128::from(u64::MAX) => Some(Difference::QpcPastWord),
        Call::Instruction if words[PENDING] > u64::MAX - 100 => Some(Difference::PendingPastWord),
        _ => None,
    }
}

/// `pending_cycles_mut` and `until_flush_mut` come from the stand-in for `Serialize`.
pub fn words_of(clock: &mut GuestClock) -> Words {
    [
        clock.utc_filetime,
        clock.uptime_ms,
        clock.submillisecond_100ns.into(),
        (clock.utc_offset_minutes + BIAS) as u64,
        clock.base_mhz.into(),
        *clock.pending_cycles_mut(),
        (*clock.until_flush_mut()).into(),
    ]
}

fn store(clock: &mut GuestClock, words: &Words) {
    clock.utc_filetime = words[UTC];
    clock.uptime_ms = words[UPTIME];
    clock.submillisecond_100ns = words[TICKS] as u32;
    clock.utc_offset_minutes = words[OFFSET] as i32 - BIAS;
    clock.base_mhz = words[MHZ] as u32;
    *clock.pending_cycles_mut() = words[PENDING];
    *clock.until_flush_mut() = words[UNTIL_FLUSH] as u16;
}
