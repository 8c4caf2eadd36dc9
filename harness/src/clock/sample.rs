//! A sample to store: steps with the answer and the whole clock after each, one to a line.
//! README.md has the meaning of each number.
use super::reference::{Answer, Difference, Reference};
use super::{BIAS, Call, Configuration, FORM, Words, edges, in_form};
use crate::random::Random;
use crate::tally::{self, Tally};
use std::collections::BTreeMap;
use std::fmt;

/// How many attempts are made before each kind of answer may stand once more.
const ATTEMPTS: u64 = 5000;

/// At most `steps` lines, with all kinds of answer about equally often, and one for a clock that is lent too few words.
pub fn lines(steps: usize, random: &Random) -> Result<Vec<Line>, String> {
    let mut reference = Reference::new();
    let opening = Call::New(Configuration {
        utc_filetime: 133_000_000_000_000_000,
        uptime_ms: 86_400_000,
        utc_offset_minutes: -60,
        base_mhz: 3,
    });
    let mut lines = vec![Line::call(&mut reference, opening)?];
    let mut kinds = BTreeMap::new();
    let mut attempts = 0;
    while lines.len() < steps {
        let mut after = reference.clone();
        let (taken, kind) = attempt(&mut after, random)?;
        let count = kinds.entry(kind).or_insert(0);
        if *count <= attempts / ATTEMPTS && taken.iter().all(|line| line.code().is_some()) {
            *count += 1;
            lines.extend(taken);
            reference = after;
        }
        attempts += 1;
    }
    lines.truncate(steps);
    if let Step::Call(opening) = lines[0].step {
        lines.push(Line::short(&reference, opening));
    }
    Ok(lines)
}

pub fn tally(lines: &[Line]) -> Tally {
    let mut tally = Tally::default();
    for line in lines {
        if let Step::Call(call) = line.step {
            let difference = line.answer.difference.map(Difference::text);
            tally.count(call.name(), tally::Kind::of(line.answer.number), difference);
        }
    }
    tally
}

type Kind = (&'static str, u64, Option<Difference>);

/// A call, often with a word put before it. A word out of form is put back.
fn attempt(reference: &mut Reference, random: &Random) -> Result<(Vec<Line>, Kind), String> {
    let mut lines = Vec::new();
    let before = *reference.words();
    let (word, value) = edges::put(random, &before);
    if random.once_in(2) {
        lines.push(Line::put(reference, word, value));
    }
    let call = edges::call(random, reference.words());
    let line = Line::call(reference, call)?;
    let kind = (call.name(), line.answer.number, line.answer.difference);
    lines.push(line);
    if !in_form(reference.words()) {
        lines.push(Line::put(reference, word, before[word]));
    }
    Ok((lines, kind))
}

enum Step {
    Call(Call),
    /// Sets a word of the clock, with no call.
    Put(usize, u64),
    /// A call that is lent a word too few.
    Short(Call),
}

/// A step, its answer, and the clock after it.
pub struct Line {
    step: Step,
    answer: Answer,
    words: Words,
}

impl Line {
    fn call(reference: &mut Reference, call: Call) -> Result<Self, String> {
        let answer = reference.call(call)?;
        Ok(Self {
            step: Step::Call(call),
            answer,
            words: *reference.words(),
        })
    }

    fn put(reference: &mut Reference, word: usize, value: u64) -> Self {
        reference.put(word, value);
        Self {
            step: Step::Put(word, value),
            answer: Answer::done(0),
            words: *reference.words(),
        }
    }

    /// Document 01 alone decides: 27, and the clock is as it was.
    fn short(reference: &Reference, call: Call) -> Self {
        Self {
            step: Step::Short(call),
            answer: Answer::refused(FORM),
            words: *reference.words(),
        }
    }

    /// `op a b c d`; nothing for an offset below the least that the biased word can hold.
    fn code(&self) -> Option<[u64; 5]> {
        Some(match self.step {
            Step::Call(Call::New(c)) => {
                let offset = c.utc_offset_minutes.checked_add(BIAS)?;
                let offset = u64::try_from(offset).ok()?;
                [0, c.utc_filetime, c.uptime_ms, offset, c.base_mhz.into()]
            }
            Step::Call(Call::Instruction) => [1, 0, 0, 0, 0],
            Step::Call(Call::FlushCycles) => [2, 0, 0, 0, 0],
            Step::Call(Call::Observe) => [3, 0, 0, 0, 0],
            Step::Call(Call::AdvanceMicroseconds(amount)) => [4, amount, 0, 0, 0],
            Step::Call(Call::Advance100ns(ticks)) => [5, ticks, 0, 0, 0],
            Step::Call(Call::AdvanceMilliseconds(amount)) => [6, amount.into(), 0, 0, 0],
            Step::Call(Call::Qpc) => [7, 0, 0, 0, 0],
            Step::Call(Call::Tick64) => [8, 0, 0, 0, 0],
            Step::Call(Call::Tsc) => [9, 0, 0, 0, 0],
            Step::Put(word, value) => [10, word as u64, value, 0, 0],
            Step::Short(call) => {
                let whole = Self {
                    step: Step::Call(call),
                    ..*self
                };
                let [_, a, b, c, d] = whole.code()?;
                [11, a, b, c, d]
            }
        })
    }
}

impl fmt::Display for Line {
    fn fmt(&self, f: &mut fmt::Formatter<'_>) -> fmt::Result {
        let code = self.code().ok_or(fmt::Error)?;
        let answer = [self.answer.number, self.answer.value];
        let numbers = code.iter().chain(&answer).chain(&self.words);
        let numbers: Vec<String> = numbers.map(u64::to_string).collect();
        f.write_str(&numbers.join(" "))
    }
}
