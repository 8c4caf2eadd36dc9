//! The clock: its seven words, its calls, and both sides of each call.
pub mod bench;
pub mod compare;
pub mod edges;
pub mod reference;
pub mod sample;

use crate::ffi;

/// A clock as the proved library takes it, by the indices below.
pub type Words = [u64; WORDS];
pub const WORDS: usize = 7;
pub const UTC: usize = 0;
pub const UPTIME: usize = 1;
pub const TICKS: usize = 2;
pub const OFFSET: usize = 3;
pub const MHZ: usize = 4;
pub const PENDING: usize = 5;
pub const UNTIL_FLUSH: usize = 6;

/// The word for the UTC offset is the offset plus this.
pub const BIAS: i32 = 840;
pub const MOST_UPTIME: u64 = u64::MAX / 10_000;

/// The refusals.
pub const CONFIGURATION: u64 = 25;
pub const OVERFLOW: u64 = 26;
pub const FORM: u64 = 27;

pub fn in_form(words: &Words) -> bool {
    words[UPTIME] <= MOST_UPTIME
        && words[TICKS] < 10_000
        && words[OFFSET] <= 2 * BIAS as u64
        && (1..=100_000).contains(&words[MHZ])
        && (1..=1000).contains(&words[UNTIL_FLUSH])
}

#[derive(Clone, Copy, Debug)]
pub struct Configuration {
    pub utc_filetime: u64,
    pub uptime_ms: u64,
    pub utc_offset_minutes: i32,
    pub base_mhz: u32,
}

#[derive(Clone, Copy, Debug)]
pub enum Call {
    New(Configuration),
    Instruction,
    FlushCycles,
    Observe,
    AdvanceMicroseconds(u64),
    Advance100ns(u64),
    AdvanceMilliseconds(u32),
    Qpc,
    Tick64,
    Tsc,
}

impl Call {
    pub fn name(self) -> &'static str {
        match self {
            Self::New(_) => "new",
            Self::Instruction => "instruction",
            Self::FlushCycles => "flush_cycles",
            Self::Observe => "observe",
            Self::AdvanceMicroseconds(_) => "advance_microseconds",
            Self::Advance100ns(_) => "advance_100ns",
            Self::AdvanceMilliseconds(_) => "advance_milliseconds",
            Self::Qpc => "qpc",
            Self::Tick64 => "tick64",
            Self::Tsc => "tsc",
        }
    }

    /// Whether the answer is a value, written to `out`.
    pub fn reads(self) -> bool {
        matches!(self, Self::Qpc | Self::Tick64 | Self::Tsc)
    }
}

/// The proved library's answer: 0 or the number of the refusal.
pub fn proved(words: &mut [u64], out: &mut [u64], call: Call) -> u64 {
    let (w, n) = (words.as_mut_ptr(), words.len());
    let (o, m) = (out.as_mut_ptr(), out.len());
    // SAFETY: each pointer comes with the length of its slice, and the two slices are apart.
    unsafe {
        match call {
            Call::New(c) => ffi::clock_new(
                w,
                n,
                c.utc_filetime,
                c.uptime_ms,
                c.utc_offset_minutes,
                c.base_mhz,
            ),
            Call::Instruction => ffi::clock_instruction(w, n),
            Call::FlushCycles => ffi::clock_flush_cycles(w, n),
            Call::Observe => ffi::clock_observe(w, n),
            Call::AdvanceMicroseconds(amount) => ffi::clock_advance_microseconds(w, n, amount),
            Call::Advance100ns(ticks) => ffi::clock_advance_100ns(w, n, ticks),
            Call::AdvanceMilliseconds(amount) => ffi::clock_advance_milliseconds(w, n, amount),
            Call::Qpc => ffi::clock_qpc(w, n, o, m),
            Call::Tick64 => ffi::clock_tick64(w, n, o, m),
            Call::Tsc => ffi::clock_tsc(w, n, o, m),
        }
    }
}
