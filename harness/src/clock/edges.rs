//! Random calls and words, with those at and around a limit over-represented.
use super::{
    BIAS, Call, Configuration, MHZ, MOST_UPTIME, OFFSET, PENDING, TICKS, UNTIL_FLUSH, UPTIME, UTC,
    WORDS, Words,
};
use crate::random::Random;

pub fn call(random: &Random, words: &Words) -> Call {
    match random.below(20) {
        0 => Call::New(configuration(random)),
        1..=4 => Call::Instruction,
        5..=6 => Call::FlushCycles,
        7..=8 => Call::Observe,
        9..=10 => Call::AdvanceMicroseconds(microseconds(random, words)),
        11..=12 => Call::Advance100ns(ticks(random, words)),
        13..=14 => Call::AdvanceMilliseconds(milliseconds(random, words)),
        15..=16 => Call::Qpc,
        17 => Call::Tick64,
        _ => Call::Tsc,
    }
}

/// More than half are within every limit.
pub fn configuration(random: &Random) -> Configuration {
    let mut made = Configuration {
        utc_filetime: utc(random),
        uptime_ms: uptime(random),
        utc_offset_minutes: random.below(2 * BIAS as u64 + 1) as i32 - BIAS,
        base_mhz: mhz(random),
    };
    match random.below(9) {
        0 => made.uptime_ms = random.pick(&[MOST_UPTIME, MOST_UPTIME + 1, u64::MAX]),
        1 => made.uptime_ms = random.number(),
        2 => made.utc_offset_minutes = random.pick(&[-841, -840, -839, 839, 840, 841]),
        3 => made.utc_offset_minutes = random.pick(&[i32::MIN, random.next() as i32, i32::MAX]),
        4 => made.base_mhz = random.pick(&[0, 1, 100_000, 100_001, u32::MAX]),
        5 => made.base_mhz = random.next() as u32,
        _ => {}
    }
    made
}

/// A word of the clock and a value for it, in form or not.
pub fn put(random: &Random, words: &Words) -> (usize, u64) {
    let word = random.below(WORDS as u64) as usize;
    let value = match random.below(8) {
        0 => damage(random, word),
        1..=3 => at_flush_edge(random, words, word),
        _ => plain(random, words, word),
    };
    (word, value)
}

/// A whole clock in form, with several words at an end of their ranges.
pub fn corner(random: &Random) -> Words {
    let small = || random.below(24);
    let mhz = random.pick(&[1, 1, 2, 3, 10, 100_000]);
    let most_flush = (u64::MAX / 10 - random.below(3)).saturating_mul(mhz);
    [
        random.pick(&[small(), u64::MAX - small(), random.number()]),
        random.pick(&[0, 0, 1, MOST_UPTIME - 1, MOST_UPTIME, MOST_UPTIME]),
        random.pick(&[small(), 1600 + small(), 9_976 + small()]),
        random.pick(&[0, BIAS as u64, 2 * BIAS as u64]),
        mhz,
        random.pick(&[
            most_flush,
            mhz * small(),
            u64::MAX - random.below(300),
            random.number(),
        ]),
        random.pick(&[1, 1, 2, 1000]),
    ]
}

fn utc(random: &Random) -> u64 {
    match random.below(4) {
        0 => random.near(0),
        1 => u64::MAX - random.below(40),
        _ => random.number(),
    }
}

fn uptime(random: &Random) -> u64 {
    match random.below(4) {
        0 => random.pick(&[0, 0, 1, 15, 16, random.below(40)]),
        1 => MOST_UPTIME - random.pick(&[0, 0, 1, 2, 15, 16, 1000]),
        _ => random.number() % (MOST_UPTIME + 1),
    }
}

fn mhz(random: &Random) -> u32 {
    match random.below(3) {
        0 => random.pick(&[1, 2, 3, 7, 10, 99, 100, 101, 99_999, 100_000]),
        _ => 1 + (random.number() % 100_000) as u32,
    }
}

/// A value within the word's range.
fn plain(random: &Random, words: &Words, word: usize) -> u64 {
    match word {
        UTC => utc(random),
        UPTIME => uptime(random),
        TICKS => random.pick(&[
            0,
            1,
            1614,
            1615,
            1616,
            9989,
            9990,
            9999,
            random.below(10_000),
        ]),
        OFFSET => random.pick(&[0, 1, 839, 840, 841, 1679, 1680, random.below(1681)]),
        MHZ => mhz(random).into(),
        PENDING => match random.below(4) {
            0 => random.near(words[MHZ] * random.below(1000)),
            1 => u64::MAX - random.pick(&[0, 1, 98, 99, 100, 101, 199, 200]),
            _ => random.number(),
        },
        UNTIL_FLUSH => random.pick(&[1, 1, 1, 2, 999, 1000, 1 + random.below(1000)]),
        _ => unreachable!("a clock has {WORDS} words"),
    }
}

/// A value with which a flush, or the microsecond after it, comes to the end of a range.
fn at_flush_edge(random: &Random, words: &Words, word: usize) -> u64 {
    let mhz = words[MHZ].max(1);
    let flush = (words[PENDING] / mhz).saturating_mul(10);
    match word {
        UTC => random.near(u64::MAX - flush - random.pick(&[0, 9, 10, 11]).min(u64::MAX - flush)),
        UPTIME => {
            let carry = words[TICKS].saturating_add(flush) / 10_000;
            random.near(MOST_UPTIME.saturating_sub(carry))
        }
        TICKS => (19_990 - flush % 10_000 + random.pick(&[9_990, 9_999, 0, 1, 9])) % 10_000,
        PENDING => {
            let room = random.pick(&[u64::MAX, u64::MAX - words[UTC], uptime_room(words)]);
            random.near((room / 10).saturating_mul(mhz))
        }
        _ => plain(random, words, word),
    }
}

/// A value at or past the end of the word's range, also one whose low bits alone are within it.
fn damage(random: &Random, word: usize) -> u64 {
    let end = match word {
        UPTIME => MOST_UPTIME,
        TICKS => 9_999,
        OFFSET => 2 * BIAS as u64,
        MHZ => 100_000,
        UNTIL_FLUSH => 1000,
        _ => return random.near(0),
    };
    let within = 1 + random.below(end);
    match random.below(6) {
        0 => 0,
        1 => end,
        2 => end + 1,
        3 => random.pick(&[1 << 16, 1 << 32, 1 << 63]) | within,
        4 => random.near(0),
        _ => random.number(),
    }
}

/// The most ticks that the uptime can advance by.
fn uptime_room(words: &Words) -> u64 {
    let room = u128::from(MOST_UPTIME.saturating_sub(words[UPTIME])) * 10_000 + 9_999;
    u64::try_from(room.saturating_sub(words[TICKS].into())).unwrap_or(u64::MAX)
}

fn ticks(random: &Random, words: &Words) -> u64 {
    match random.below(8) {
        0 => random.near(0),
        1 => random.near(u64::MAX - words[UTC]),
        2 => random.near(u64::MAX - words[TICKS]),
        3 => random.near(uptime_room(words)),
        4 => random.near(10_000_u64.saturating_sub(words[TICKS])),
        5 => random.below(20_000),
        _ => random.number(),
    }
}

fn microseconds(random: &Random, words: &Words) -> u64 {
    match random.below(4) {
        0 => random.near(u64::MAX / 10),
        1 => random.near(0),
        _ => {
            let ticks = ticks(random, words);
            random.near(ticks / 10)
        }
    }
}

fn milliseconds(random: &Random, words: &Words) -> u32 {
    match random.below(4) {
        0 => random.near(0) as u32,
        1 => random.next() as u32,
        _ => {
            let ticks = ticks(random, words);
            random.near(ticks / 10_000) as u32
        }
    }
}
