//! Random scripts in document 01's language, with the output that the originals give.
mod chosen;
mod line;
mod unreadable;

use crate::clock;
use crate::random::Random;
use crate::scheduler::draw::Draw;
use crate::scheduler::reference::{Lengths, Reference};
use crate::scheduler::state::State;
use crate::scheduler::{Call, Limits};
use std::fs;
use std::path::Path;

/// The script program's limits.
const LIMITS: Limits = Limits::new(16, 64, 64);
const UNREADABLE: &str = "refused 28";

/// The fewest bytes and lines of a long script.
const LONG: usize = 40_960;
const LONG_LINES: usize = 1_000;

/// Writes as many random scripts to the folder, the chosen ones and a long one, each with its output
/// beside it.
pub fn write(count: u64, folder: &Path, random: &Random) -> Result<(), String> {
    fs::create_dir_all(folder).map_err(|error| format!("{}: {error}", folder.display()))?;
    for index in 1..=count {
        store(
            folder,
            &format!("random-{index:04}"),
            Script::random(random)?,
        )?;
    }
    for (index, list) in (1..).zip(chosen::lists()) {
        store(
            folder,
            &format!("chosen-{index:04}"),
            Script::chosen(random, &list)?,
        )?;
    }
    store(folder, "long", Script::long(random)?)
}

fn store(folder: &Path, name: &str, script: Script) -> Result<(), String> {
    for (ending, lines) in [("script", script.lines), ("out", script.output)] {
        let path = folder.join(format!("{name}.{ending}"));
        let text = lines.join("\n") + "\n";
        fs::write(&path, text).map_err(|error| format!("{}: {error}", path.display()))?;
    }
    Ok(())
}

struct Script<'a> {
    random: &'a Random,
    draw: Draw<'a>,
    /// After an `open` and after a `clock new` that succeeded.
    scheduler: Option<Reference>,
    clock: Option<clock::reference::Reference>,
    lines: Vec<String>,
    output: Vec<String>,
}

impl<'a> Script<'a> {
    fn new(random: &'a Random, keys: u64) -> Self {
        Self {
            random,
            draw: Draw::new(random, keys),
            scheduler: None,
            clock: None,
            lines: Vec::new(),
            output: Vec::new(),
        }
    }

    /// Calls that all have a line.
    fn chosen(random: &'a Random, list: &[Call]) -> Result<Self, String> {
        let mut script = Self::new(random, 1);
        script.open(8);
        for call in list {
            script.scheduler_call(call)?;
        }
        Ok(script)
    }

    fn long(random: &'a Random) -> Result<Self, String> {
        let mut script = Self::random(random)?;
        while script.lines.len() < LONG_LINES
            || script.lines.iter().map(String::len).sum::<usize>() < LONG
        {
            script.random_line()?;
        }
        Ok(script)
    }

    fn random(random: &'a Random) -> Result<Self, String> {
        let keys = random.pick(&[3, 8, 80]);
        let mut script = Self::new(random, keys);
        if random.once_in(8) {
            for _ in 0..random.below(4) {
                script.random_line()?;
            }
        }
        if random.once_in(8) {
            script.open(random.pick(&[0, 32, 255]));
            script.random_line()?;
        }
        script.open(1 + random.below(31) as u8);
        if random.below(8) < 6 {
            let call = script.draw.configure();
            script.scheduler_call(&call)?;
        }
        for index in 0..random.pick(&[0, keys as usize, keys as usize + 20]) {
            let call = script.draw.addition(index, LIMITS);
            script.scheduler_call(&call)?;
        }
        for _ in 0..random.pick(&[0, 0, 8, 30]) {
            let state = script.state();
            let call = script.draw.arming(&state);
            script.scheduler_call(&call)?;
        }
        for _ in 0..20 + random.below(180) {
            script.random_line()?;
        }
        Ok(script)
    }

    fn push(&mut self, line: String, answer: &str) {
        self.lines.push(line);
        self.output.push(format!("{} {answer}", self.lines.len()));
    }

    fn random_line(&mut self) -> Result<(), String> {
        match self.random.below(24) {
            0 => {
                let line = unreadable::line(self.random);
                self.push(line, UNREADABLE);
                Ok(())
            }
            1..=4 => self.clock_line(),
            _ => self.scheduler_line(),
        }
    }

    fn open(&mut self, priority: u8) {
        let answer = match &self.scheduler {
            Some(_) => UNREADABLE,
            None if (1..=31).contains(&priority) => {
                self.scheduler = Some(Reference::new(priority, LIMITS));
                "ok"
            }
            None => "refused 1",
        };
        self.push(format!("open {priority}"), answer);
    }

    /// That of a new scheduler before there is one.
    fn state(&mut self) -> State {
        let mut start = Reference::new(8, LIMITS);
        self.scheduler.as_mut().unwrap_or(&mut start).state()
    }

    fn scheduler_line(&mut self) -> Result<(), String> {
        let state = self.state();
        let call = self.draw.call(&state, LIMITS);
        if let Call::Open { priority, .. } = call
            && let Ok(priority) = u8::try_from(priority)
            && self.scheduler.is_some()
        {
            self.open(priority);
            return Ok(());
        }
        self.scheduler_call(&call)
    }

    /// The call's line, if it has one.
    fn scheduler_call(&mut self, call: &Call) -> Result<(), String> {
        let Some(line) = line::scheduler(call) else {
            return Ok(());
        };
        let answer = match &mut self.scheduler {
            None => UNREADABLE.to_string(),
            Some(scheduler) => {
                let answer = scheduler.call(call, Lengths::needed(LIMITS, call))?;
                line::scheduler_answer(call, &answer)
            }
        };
        self.push(line, &answer);
        Ok(())
    }

    fn clock_line(&mut self) -> Result<(), String> {
        let new = clock::reference::Reference::new();
        let mut clock = self.clock.clone().unwrap_or(new);
        let call = match self.clock {
            None if self.random.once_in(2) => {
                clock::Call::New(clock::edges::configuration(self.random))
            }
            _ => clock::edges::call(self.random, clock.words()),
        };
        let is_new = matches!(call, clock::Call::New(_));
        let line = line::clock(call);
        if self.scheduler.is_none() || self.clock.is_none() && !is_new {
            self.push(line, UNREADABLE);
            return Ok(());
        }
        let answer = clock.call(call)?;
        if answer.number == 0 || self.clock.is_some() {
            self.clock = Some(clock);
        }
        self.push(line, &line::clock_answer(call, answer));
        Ok(())
    }
}
