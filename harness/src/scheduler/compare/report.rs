//! What a comparison tells: counts.
use crate::scheduler::refusals::TABLE;
use crate::tally::Tally;
use std::collections::{BTreeMap, BTreeSet};
use std::fmt;

/// The calls that were compared, and those made on words of which one was changed.
#[derive(Default)]
pub struct Tallies {
    pub compared: Tally,
    pub damaged: Tally,
    /// How many times the changed words were in form, and which clause they broke.
    pub in_form: u64,
    pub faults: BTreeMap<&'static str, u64>,
    /// What the original said, by call.
    pub messages: BTreeSet<(&'static str, &'static str)>,
}

impl fmt::Display for Tallies {
    fn fmt(&self, f: &mut fmt::Formatter<'_>) -> fmt::Result {
        write!(f, "{}", self.compared)?;
        for (call, messages) in TABLE {
            for (message, number) in *messages {
                if !self.messages.contains(&(*call, *message)) {
                    writeln!(f, "never met: {call} refused {number} ({message})")?;
                }
            }
        }
        let out: u64 = self.faults.values().sum();
        writeln!(
            f,
            "with a word changed, {} times in form, {out} times not",
            self.in_form
        )?;
        let faults: Vec<String> = self
            .faults
            .iter()
            .map(|(fault, count)| format!("{fault}: {count}"))
            .collect();
        writeln!(f, "the first clause broken, {}", faults.join(", "))?;
        write!(f, "{}", self.damaged)
    }
}
