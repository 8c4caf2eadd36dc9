//! Random sequences of calls on both schedulers: answers, the whole visible state, and the rest of
//! what was lent.
mod both;
mod damage;
pub mod put;
mod report;
mod scene;
mod smallest;
mod survey;

use super::Call;
use super::draw::Draw;
use super::reference::Lengths;
use super::room::{BYTES, OUT, WAITING};
use crate::random::Random;
use crate::tally::Kind;
use both::{Both, Step};
use put::Put;
use report::Tallies;
use scene::Scene;

/// How many calls are made on changed words.
const DAMAGED_CALLS: u64 = 5;

/// Compares at least `calls` calls. A difference is an error, which tells a short history of a
/// scheduler that ends in one, and both states.
pub fn run(calls: u64, random: &Random) -> Result<Tallies, String> {
    let mut tallies = Tallies::default();
    while tallies.compared.total() < calls {
        let scene = Scene::new(random);
        let mut life = Life {
            random,
            draw: Draw::new(random, scene.keys),
            both: Both::new(scene.limits),
            history: Vec::new(),
        };
        if life.run(&scene, &mut tallies).is_err() {
            let steps = smallest::smallest(scene.limits, &life.history);
            return Err(smallest::told(scene.limits, &steps));
        }
    }
    Ok(tallies)
}

/// There is a difference; the history ends with it.
struct Differs;

struct Life<'a> {
    random: &'a Random,
    draw: Draw<'a>,
    both: Both,
    history: Vec<Step>,
}

impl Life<'_> {
    /// One scheduler, from an opening that succeeds.
    fn run(&mut self, scene: &Scene, tallies: &mut Tallies) -> Result<(), Differs> {
        let opening = Call::Open {
            priority: 1 + self.random.below(31),
            limits: scene.limits,
        };
        self.plain(opening, tallies)?;
        if scene.policy {
            let call = self.draw.configure();
            self.plain(call, tallies)?;
        }
        for index in 0..scene.additions {
            let call = self.draw.addition(index, scene.limits);
            self.plain(call, tallies)?;
        }
        for _ in 0..scene.armings {
            let call = self.draw.arming(self.both.state());
            self.plain(call, tallies)?;
        }
        for call in 0..scene.calls {
            if scene.put == Some(call)
                && let Some(put) = Put::new(self.random, self.both.state())
            {
                self.step(Step::Put(put))?;
            }
            let call = self.draw.any_call(self.both.state(), self.both.limits());
            let lent = self.lengths(&call);
            self.call(call, lent, tallies)?;
            if self.random.once_in(scene.survey) {
                for call in survey::calls(self.random, self.both.state()) {
                    self.plain(call, tallies)?;
                }
            }
            if self.random.once_in(scene.damage) {
                self.damage(tallies)?;
            }
            if self.both.state().is_stuck() && self.random.once_in(16) {
                break;
            }
        }
        Ok(())
    }

    fn step(&mut self, step: Step) -> Result<Option<Counted>, Differs> {
        let answer = self.both.step(&step);
        let counted = match (&step, &answer) {
            (Step::Call { call, .. }, Ok(Some(answer))) => Some((call.name(), answer.kind())),
            _ => None,
        };
        self.history.push(step);
        answer.map_err(|_| Differs)?;
        Ok(counted)
    }

    fn call(&mut self, call: Call, lent: Lengths, tallies: &mut Tallies) -> Result<(), Differs> {
        if let Some((name, kind)) = self.step(Step::Call { call, lent })? {
            tallies.compared.count(name, kind, None);
            let message = self.both.message();
            let message = message.map(|message| (name, message));
            tallies.messages.extend(message);
        }
        Ok(())
    }

    /// A call with as much lent as it needs.
    fn plain(&mut self, call: Call, tallies: &mut Tallies) -> Result<(), Differs> {
        let lent = Lengths::needed(self.both.limits(), &call);
        self.call(call, lent, tallies)
    }

    /// Mostly as many words as are needed, or more; now and then fewer of one slice.
    fn lengths(&self, call: &Call) -> Lengths {
        let random = self.random;
        let usual = Lengths::needed(self.both.limits(), call);
        let short = |length: usize| random.pick(&[0, 1, length - 1, length / 2]).min(length - 1);
        let more = Lengths {
            words: self.both.words().len(),
            out: OUT,
            waiting: WAITING,
            bytes: BYTES,
        };
        match random.below(64) {
            0 => Lengths {
                words: short(usual.words),
                ..usual
            },
            // Which of 1 and 27 goes first at a short `out` is left open.
            1 if !matches!(call, Call::Open { priority, .. } if !(1..=31).contains(priority)) => {
                Lengths {
                    out: short(usual.out),
                    ..usual
                }
            }
            2 => Lengths {
                waiting: short(usual.waiting),
                ..usual
            },
            3..=10 if call.answers_image() => Lengths {
                bytes: short(usual.bytes),
                ..usual
            },
            3..=15 => more,
            _ => usual,
        }
    }

    /// Changes a word and makes a few calls, and then goes on as if nothing had been. Where there is
    /// a difference, the history has that too.
    fn damage(&mut self, tallies: &mut Tallies) -> Result<(), Differs> {
        let (both, length) = (self.both.clone(), self.history.len());
        for step in damage::steps(self.random, &self.both) {
            self.step(step)?;
        }
        match self.both.fault() {
            Some(fault) => *tallies.faults.entry(fault).or_default() += 1,
            None => tallies.in_form += 1,
        }
        for _ in 0..DAMAGED_CALLS {
            let call = self.draw.any_call(self.both.state(), self.both.limits());
            let lent = Lengths {
                waiting: WAITING,
                ..Lengths::needed(self.both.limits(), &call)
            };
            if let Some((name, kind)) = self.step(Step::Call { call, lent })? {
                tallies.damaged.count(name, kind, None);
            }
        }
        self.both = both;
        self.history.truncate(length);
        Ok(())
    }
}

/// A call's name, and what kind of answer it got.
type Counted = (&'static str, Kind);
