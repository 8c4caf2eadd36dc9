//! The guest clock.
use crate::ffi::*;
use std::fmt;

/// The word for the UTC offset is the offset plus this.
const BIAS: i64 = 840;
const WORDS: usize = 7;

type Words = [u64; WORDS];

#[derive(Clone, Copy, Debug, PartialEq, Eq)]
pub enum ClockError {
    InvalidConfiguration,
    Overflow,
    /// A public field was set out of its range.
    OutOfForm,
}

impl ClockError {
    /// The number in document 01's table.
    pub fn number(self) -> u64 {
        match self {
            Self::InvalidConfiguration => 25,
            Self::Overflow => 26,
            Self::OutOfForm => 27,
        }
    }

    fn of(number: u64) -> Self {
        match number {
            25 => Self::InvalidConfiguration,
            26 => Self::Overflow,
            _ => Self::OutOfForm,
        }
    }
}

impl fmt::Display for ClockError {
    fn fmt(&self, f: &mut fmt::Formatter<'_>) -> fmt::Result {
        let message = match self {
            Self::InvalidConfiguration => "Invalid guest CPU frequency or UTC offset",
            Self::Overflow => "Guest clock exceeds its representable range",
            Self::OutOfForm => "Guest clock out of form",
        };
        write!(f, "{message} ({})", self.number())
    }
}

impl std::error::Error for ClockError {}

#[derive(Clone, Debug)]
pub struct GuestClock {
    pub utc_filetime: u64,
    pub uptime_ms: u64,
    pub submillisecond_100ns: u32,
    pub utc_offset_minutes: i32,
    pub base_mhz: u32,
    pending_cycles: u64,
    until_flush: u16,
}

impl GuestClock {
    pub fn new(
        utc_filetime: u64,
        uptime_ms: u64,
        utc_offset_minutes: i32,
        base_mhz: u32,
    ) -> Result<Self, ClockError> {
        let mut words = [0; WORDS];
        // SAFETY: the words are as many as is said.
        let number = unsafe {
            clock_new(
                words.as_mut_ptr(),
                WORDS,
                utc_filetime,
                uptime_ms,
                utc_offset_minutes,
                base_mhz,
            )
        };
        match number {
            0 => Ok(Self::of(words)),
            _ => Err(ClockError::of(number)),
        }
    }

    pub fn instruction(&mut self) -> Result<(), ClockError> {
        self.change(|w, n| unsafe { clock_instruction(w, n) })
    }

    pub fn advance_microseconds(&mut self, amount: u64) -> Result<(), ClockError> {
        self.change(|w, n| unsafe { clock_advance_microseconds(w, n, amount) })
    }

    pub fn advance_100ns(&mut self, ticks: u64) -> Result<(), ClockError> {
        self.change(|w, n| unsafe { clock_advance_100ns(w, n, ticks) })
    }

    pub fn advance_milliseconds(&mut self, amount: u32) -> Result<(), ClockError> {
        self.change(|w, n| unsafe { clock_advance_milliseconds(w, n, amount) })
    }

    pub fn flush_cycles(&mut self) -> Result<(), ClockError> {
        self.change(|w, n| unsafe { clock_flush_cycles(w, n) })
    }

    pub fn observe(&mut self) -> Result<(), ClockError> {
        self.change(|w, n| unsafe { clock_observe(w, n) })
    }

    /// Panics where it passes 2^64 - 1, as the Rust bench does with overflow checks.
    pub fn qpc(&self) -> u64 {
        self.checked_qpc().expect("qpc")
    }

    /// 26 where it passes 2^64 - 1.
    pub fn checked_qpc(&self) -> Result<u64, ClockError> {
        self.read(|w, n, o, m| unsafe { clock_qpc(w, n, o, m) })
    }

    pub fn tick64(&self) -> u64 {
        self.read(|w, n, o, m| unsafe { clock_tick64(w, n, o, m) })
            .expect("tick64")
    }

    /// Panics where qpc passes 2^64 - 1, as the Rust bench does with overflow checks.
    pub fn tsc(&self) -> u64 {
        self.checked_tsc().expect("tsc")
    }

    /// 26 where qpc passes 2^64 - 1.
    pub fn checked_tsc(&self) -> Result<u64, ClockError> {
        self.read(|w, n, o, m| unsafe { clock_tsc(w, n, o, m) })
    }

    /// An offset under -840 has no word; one over 840 is out of form as well.
    fn words(&self) -> Words {
        [
            self.utc_filetime,
            self.uptime_ms,
            self.submillisecond_100ns.into(),
            u64::try_from(i64::from(self.utc_offset_minutes) + BIAS).unwrap_or(u64::MAX),
            self.base_mhz.into(),
            self.pending_cycles,
            self.until_flush.into(),
        ]
    }

    fn of(words: Words) -> Self {
        let [utc, uptime, ticks, offset, mhz, pending, until] = words;
        Self {
            utc_filetime: utc,
            uptime_ms: uptime,
            submillisecond_100ns: ticks as u32,
            utc_offset_minutes: (offset as i64 - BIAS) as i32,
            base_mhz: mhz as u32,
            pending_cycles: pending,
            until_flush: until as u16,
        }
    }

    fn change(&mut self, call: impl FnOnce(*mut u64, usize) -> u64) -> Result<(), ClockError> {
        let mut words = self.words();
        let number = call(words.as_mut_ptr(), WORDS);
        if number != ClockError::OutOfForm.number() {
            *self = Self::of(words);
        }
        match number {
            0 => Ok(()),
            _ => Err(ClockError::of(number)),
        }
    }

    fn read(
        &self,
        call: impl FnOnce(*const u64, usize, *mut u64, usize) -> u64,
    ) -> Result<u64, ClockError> {
        let (words, mut value) = (self.words(), 0);
        match call(words.as_ptr(), WORDS, &mut value, 1) {
            0 => Ok(value),
            number => Err(ClockError::of(number)),
        }
    }
}
