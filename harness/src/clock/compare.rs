//! Random sequences of calls on both clocks: answers, every word, and the rest of what was lent.
use super::reference::{Answer, Difference, Reference, created};
use super::{Call, FORM, WORDS, edges, in_form, proved};
use crate::random::Random;
use crate::tally::{Kind, Tally};
use std::fmt;

/// What the slices hold where no call may write.
const UNUSED: u64 = 0x5555_aaaa_3333_cccc;
const LENT: usize = WORDS + 3;
const OUT: usize = 3;

/// Compares at least `calls` calls. A difference that is not listed is an error, which tells the
/// whole history of its clock.
pub fn run(calls: u64, random: &Random) -> Result<Tally, String> {
    let mut pair = Pair::new(random);
    while pair.tally.total() < calls {
        pair.history.clear();
        if let Err(difference) = pair.life() {
            return Err(pair.told(&difference));
        }
    }
    Ok(pair.tally)
}

/// How many words a call is lent.
#[derive(Clone, Copy)]
struct Lent {
    words: usize,
    out: usize,
}

impl Lent {
    const USUAL: Self = Self {
        words: WORDS,
        out: 1,
    };

    fn random(random: &Random) -> Self {
        Self {
            words: random.pick(&[0, 1, WORDS - 1, WORDS, WORDS, LENT]),
            out: random.below(OUT as u64 + 1) as usize,
        }
    }
}

/// What happened to a clock.
enum Event {
    Put { word: usize, value: u64 },
    Call { call: Call, lent: Lent },
    Answer { number: u64 },
}

impl fmt::Display for Event {
    fn fmt(&self, f: &mut fmt::Formatter<'_>) -> fmt::Result {
        match self {
            Self::Put { word, value } => write!(f, "word {word} put to {value}"),
            Self::Call { call, lent } => {
                write!(f, "{call:?}, lent {} words, {} out", lent.words, lent.out)
            }
            Self::Answer { number } => write!(f, "    answered {number}"),
        }
    }
}

struct Pair<'a> {
    random: &'a Random,
    reference: Reference,
    /// The proved clock, and unused words after it.
    words: [u64; LENT],
    history: Vec<Event>,
    tally: Tally,
}

impl<'a> Pair<'a> {
    fn new(random: &'a Random) -> Self {
        let reference = Reference::new();
        let mut words = [UNUSED; LENT];
        words[..WORDS].copy_from_slice(reference.words());
        Self {
            random,
            reference,
            words,
            history: Vec::new(),
            tally: Tally::default(),
        }
    }

    /// One clock, from a creation that succeeds. It is moved by calls alone, or words are put
    /// between them, one at a time or all together.
    fn life(&mut self) -> Result<(), String> {
        let configuration = loop {
            let configuration = edges::configuration(self.random);
            if created(configuration).is_ok() {
                break configuration;
            }
        };
        self.call(Call::New(configuration), Lent::USUAL)?;
        let kind = self.random.below(3);
        for _ in 0..=self.random.below(300) {
            match kind {
                0 if self.random.once_in(600) => self.instructions()?,
                1 if self.random.once_in(3) => self.put()?,
                2 if self.random.once_in(2) => {
                    for (word, value) in edges::corner(self.random).into_iter().enumerate() {
                        self.set(word, value);
                    }
                }
                _ => {}
            }
            self.random_call()?;
        }
        Ok(())
    }

    fn random_call(&mut self) -> Result<(), String> {
        let call = edges::call(self.random, self.reference.words());
        let lent = match call {
            // Which of 25 and 27 goes first is left open.
            Call::New(configuration) if created(configuration).is_err() => Lent::USUAL,
            _ if self.random.once_in(16) => Lent::random(self.random),
            _ => Lent::USUAL,
        };
        self.call(call, lent)
    }

    /// Instructions in a row, past the end of a countdown or two.
    fn instructions(&mut self) -> Result<(), String> {
        for _ in 0..self.random.pick(&[999, 1000, 1001, 2500]) {
            self.call(Call::Instruction, Lent::USUAL)?;
        }
        Ok(())
    }

    /// Sets a word on both sides. Words out of form are tried with a few calls and put back.
    fn put(&mut self) -> Result<(), String> {
        let (word, value) = edges::put(self.random, self.reference.words());
        let before = self.reference.words()[word];
        self.set(word, value);
        if !in_form(self.reference.words()) {
            for _ in 0..=self.random.below(3) {
                self.random_call()?;
            }
            if !in_form(self.reference.words()) {
                self.set(word, before);
            }
        }
        Ok(())
    }

    fn set(&mut self, word: usize, value: u64) {
        self.history.push(Event::Put { word, value });
        self.reference.put(word, value);
        self.words[word] = value;
    }

    fn call(&mut self, call: Call, lent: Lent) -> Result<(), String> {
        self.history.push(Event::Call { call, lent });
        let expected = if lent.words < WORDS || call.reads() && lent.out == 0 {
            Answer::refused(FORM)
        } else {
            self.reference.call(call)?
        };
        let mut words = [UNUSED; LENT];
        words[..WORDS].copy_from_slice(self.reference.words());
        let mut out = [UNUSED; OUT];
        if call.reads() && expected.number == 0 {
            out[0] = expected.value;
        }

        let mut proved_out = [UNUSED; OUT];
        let number = proved(
            &mut self.words[..lent.words],
            &mut proved_out[..lent.out],
            call,
        );
        if number != expected.number || proved_out != out || self.words != words {
            return Err(format!(
                "expected {} {out:?} {words:?}\nproved   {number} {proved_out:?} {:?}",
                expected.number, self.words
            ));
        }
        self.history.push(Event::Answer { number });
        let difference = expected.difference.map(Difference::text);
        self.tally.count(call.name(), Kind::of(number), difference);
        Ok(())
    }

    /// The history of the clock, and the difference at its end.
    fn told(&self, difference: &str) -> String {
        let history: Vec<String> = self.history.iter().map(Event::to_string).collect();
        history.join("\n") + "\n" + difference
    }
}
