//! How many calls were compared, what they answered, and where the two sides differ as listed.
use std::collections::BTreeMap;
use std::fmt;

/// What a call answered.
#[derive(Clone, Copy, Debug, PartialEq, Eq, PartialOrd, Ord)]
pub enum Kind {
    Accepted(&'static str),
    Refused(u64),
}

impl Kind {
    /// The answer of a function that only returns a number.
    pub fn of(number: u64) -> Self {
        match number {
            0 => Self::Accepted("done"),
            _ => Self::Refused(number),
        }
    }
}

impl fmt::Display for Kind {
    fn fmt(&self, f: &mut fmt::Formatter<'_>) -> fmt::Result {
        match self {
            Self::Accepted(answer) => f.write_str(answer),
            Self::Refused(number) => write!(f, "refused {number}"),
        }
    }
}

type Counts = BTreeMap<Kind, u64>;

#[derive(Default)]
pub struct Tally {
    total: u64,
    answers: BTreeMap<&'static str, Counts>,
    differences: BTreeMap<&'static str, u64>,
}

impl Tally {
    pub fn count(&mut self, call: &'static str, answer: Kind, difference: Option<&'static str>) {
        self.total += 1;
        let counts = self.answers.entry(call).or_default();
        *counts.entry(answer).or_default() += 1;
        if let Some(difference) = difference {
            *self.differences.entry(difference).or_default() += 1;
        }
    }

    pub fn total(&self) -> u64 {
        self.total
    }
}

impl fmt::Display for Tally {
    fn fmt(&self, f: &mut fmt::Formatter<'_>) -> fmt::Result {
        let mut all = Counts::new();
        for counts in self.answers.values() {
            for (answer, count) in counts {
                *all.entry(*answer).or_default() += count;
            }
        }
        writeln!(f, "{:<22}{:>10}  by answer", "", "calls")?;
        for (call, counts) in &self.answers {
            row(f, call, counts)?;
        }
        row(f, "all", &all)?;
        for (difference, count) in &self.differences {
            writeln!(f, "listed difference, {count} times: {difference}")?;
        }
        Ok(())
    }
}

fn row(f: &mut fmt::Formatter<'_>, name: &str, counts: &Counts) -> fmt::Result {
    let total: u64 = counts.values().sum();
    let counts: Vec<String> = counts
        .iter()
        .map(|(answer, count)| format!("{answer}: {count}"))
        .collect();
    writeln!(f, "{name:<22}{total:>10}  {}", counts.join(", "))
}
