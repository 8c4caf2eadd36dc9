//! The proved clock's calls against the original's, from one driver. Both are called through a
//! function pointer that the compiler cannot see through, so neither is inlined.
use super::reference::{created, words_of};
use super::{Call, Configuration, PENDING, WORDS, Words, proved};
use crate::bench::ratio;
use crate::ffi;
use emumee::clock::{ClockError, GuestClock};
use std::hint::black_box;

type New = unsafe extern "C" fn(*mut u64, usize, u64, u64, i32, u32) -> u64;
type Change = unsafe extern "C" fn(*mut u64, usize) -> u64;
type Advance<T> = unsafe extern "C" fn(*mut u64, usize, T) -> u64;
type Read = unsafe extern "C" fn(*const u64, usize, *mut u64, usize) -> u64;
type OriginalNew = fn(u64, u64, i32, u32) -> Result<GuestClock, ClockError>;
type OriginalChange = fn(&mut GuestClock) -> Result<(), ClockError>;
type OriginalAdvance<T> = fn(&mut GuestClock, T) -> Result<(), ClockError>;
type OriginalRead = fn(&GuestClock) -> u64;

const START: Configuration = Configuration {
    utc_filetime: 133_000_000_000_000_000,
    uptime_ms: 86_400_000,
    utc_offset_minutes: 60,
    base_mhz: 3000,
};
/// The cycles pending before each flush.
const CYCLES: u64 = 123_456;

pub fn run() {
    new("new", ffi::clock_new, GuestClock::new);
    change(
        "instruction",
        ffi::clock_instruction,
        GuestClock::instruction,
    );
    flush(
        "flush_cycles",
        ffi::clock_flush_cycles,
        GuestClock::flush_cycles,
    );
    change("observe", ffi::clock_observe, GuestClock::observe);
    advance(
        "advance_microseconds",
        ffi::clock_advance_microseconds,
        GuestClock::advance_microseconds,
        12_345,
    );
    advance(
        "advance_100ns",
        ffi::clock_advance_100ns,
        GuestClock::advance_100ns,
        12_345,
    );
    advance(
        "advance_milliseconds",
        ffi::clock_advance_milliseconds,
        GuestClock::advance_milliseconds,
        12_345,
    );
    read("qpc", ffi::clock_qpc, GuestClock::qpc);
    read("tick64", ffi::clock_tick64, GuestClock::tick64);
    read("tsc", ffi::clock_tsc, GuestClock::tsc);
}

/// The same clock on both sides.
fn start() -> (Words, GuestClock) {
    let mut words = [0; WORDS];
    assert_eq!(proved(&mut words, &mut [], Call::New(START)), 0);
    (words, created(START).expect("within the limits"))
}

fn new(name: &str, proved: New, original: OriginalNew) {
    let (proved, original, c) = black_box((proved, original, START));
    let (utc, uptime, offset, mhz) = (
        c.utc_filetime,
        c.uptime_ms,
        c.utc_offset_minutes,
        c.base_mhz,
    );
    let mut words = [0; WORDS];
    ratio(
        name,
        // SAFETY: the pointer comes with the number of its words.
        || unsafe { proved(words.as_mut_ptr(), WORDS, utc, uptime, offset, mhz) },
        // By reference, so that the measurement copies no clock.
        || {
            black_box(&original(utc, uptime, offset, mhz));
        },
    );
    let mut clock = original(utc, uptime, offset, mhz).expect("within the limits");
    assert_eq!(words, words_of(&mut clock), "{name}");
}

fn change(name: &str, proved: Change, original: OriginalChange) {
    let (mut words, mut clock) = start();
    let (proved, original) = black_box((proved, original));
    ratio(
        name,
        // SAFETY: the pointer comes with the number of its words.
        || unsafe { proved(words.as_mut_ptr(), WORDS) },
        || original(&mut clock),
    );
    assert_eq!(words, words_of(&mut clock), "{name}");
}

/// A change with the same cycles put before each call; `pending_cycles_mut` comes from the stand-in
/// for `Serialize`.
fn flush(name: &str, proved: Change, original: OriginalChange) {
    let (mut words, mut clock) = start();
    let (proved, original, cycles) = black_box((proved, original, CYCLES));
    ratio(
        name,
        || {
            words[PENDING] = cycles;
            // SAFETY: the pointer comes with the number of its words.
            unsafe { proved(words.as_mut_ptr(), WORDS) }
        },
        || {
            *clock.pending_cycles_mut() = cycles;
            original(&mut clock)
        },
    );
    assert_eq!(words, words_of(&mut clock), "{name}");
}

fn advance<T: Copy>(name: &str, proved: Advance<T>, original: OriginalAdvance<T>, amount: T) {
    let (mut words, mut clock) = start();
    let (proved, original, amount) = black_box((proved, original, amount));
    ratio(
        name,
        // SAFETY: the pointer comes with the number of its words.
        || unsafe { proved(words.as_mut_ptr(), WORDS, amount) },
        || original(&mut clock, amount),
    );
    assert_eq!(words, words_of(&mut clock), "{name}");
}

fn read(name: &str, proved: Read, original: OriginalRead) {
    let (words, clock) = start();
    let (proved, original) = black_box((proved, original));
    let mut out = [0];
    ratio(
        name,
        // SAFETY: each pointer comes with the number of its words.
        || unsafe { proved(words.as_ptr(), WORDS, out.as_mut_ptr(), out.len()) },
        || original(&clock),
    );
    assert_eq!(out[0], original(&clock), "{name}");
}
