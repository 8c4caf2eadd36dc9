//! What `library_replay` must write for a list: each answer, and below it what the reads now answer
//! otherwise than before.
use super::made::Made;
use super::{Met, line, met};
use crate::scheduler::Call;
use crate::scheduler::answer::Answer;
use crate::scheduler::reference::{Lengths, Reference};
use std::collections::BTreeMap;

/// The most keys of mutexes that are read, and the most positions of each table.
const KEYS: usize = 16;
const THREADS: u64 = 256;
const POSITIONS: u64 = 128;

const TAGS: [&str; 22] = [
    "?",
    "done",
    "none",
    "thread",
    "flag",
    "count",
    "satisfied",
    "timeout",
    "blocked",
    "run",
    "advance",
    "deadlocked",
    "finished",
    "event",
    "timer",
    "dpc",
    "work",
    "no policy",
    "policy",
    "counters",
    "thread record",
    "object",
];

/// A list as lines, the output's lines, and what each call meets.
pub struct Told {
    pub lines: Vec<String>,
    pub output: Vec<String>,
    pub met: Vec<Met>,
}

pub fn told(list: &[Made]) -> Result<Told, String> {
    told_from(list, 0)
}

/// After as many lines of other lists.
pub fn told_from(list: &[Made], before: u64) -> Result<Told, String> {
    let mut keys: Vec<u64> = Vec::new();
    for made in list {
        if let Call::InitializeMutex { key } | Call::AdoptMutex { key, .. } = made.call
            && !keys.contains(&key)
            && keys.len() < KEYS
        {
            keys.push(key);
        }
    }
    let Some(Call::Open { limits, .. }) = list.first().map(|made| &made.call) else {
        return Err("a list begins with an opening".to_string());
    };
    let named = keys.iter().map(|key| format!(" {key}")).collect::<String>();
    let mut told = Told {
        lines: vec![format!("keys{named}")],
        output: Vec::new(),
        met: Vec::new(),
    };
    let mut shown = Shown {
        reference: Reference::new(1, *limits),
        last: BTreeMap::new(),
    };
    for made in list {
        if made.times > 1 {
            told.lines.push(format!("times {}", made.times));
        }
        told.lines.push(line::line(made));
        let state = shown.reference.state();
        let answer = made.answer(&mut shown.reference)?;
        let (message, after) = (shown.reference.message(), shown.reference.state());
        told.met
            .push(met::met(made, &answer, message, &state, &after));
        let number = before + told.lines.len() as u64;
        told.output
            .push(format!("{number} {}", text(&answer) + &beside(&answer)));
        shown.state(&keys, &mut told.output)?;
    }
    Ok(told)
}

/// The tag by its name and the values, noughts at the end left out; or the refusal.
fn text(answer: &Answer) -> String {
    if answer.number() != 0 {
        return format!("refused {}", answer.number());
    }
    let mut words: Vec<u64> = answer
        .words()
        .into_iter()
        .map(Option::unwrap_or_default)
        .collect();
    while words.last() == Some(&0) {
        words.pop();
    }
    let values = words[1..].iter().map(|word| format!(" {word}"));
    TAGS[words[0] as usize].to_string() + &values.collect::<String>()
}

/// What is answered beside `out`: the numbers of a deadlock, or an image's bytes.
fn beside(answer: &Answer) -> String {
    match answer {
        Answer::Deadlocked(waiting) => waiting.iter().map(|id| format!(" {id}")).collect(),
        Answer::Image(bytes) => {
            let bytes: String = bytes.iter().map(|byte| format!("{byte:02x}")).collect();
            format!(" {bytes}")
        }
        _ => String::new(),
    }
}

struct Shown {
    reference: Reference,
    /// The last answer of each read.
    last: BTreeMap<String, String>,
}

impl Shown {
    fn read(&mut self, call: Call) -> Result<Answer, String> {
        let needed = Lengths::needed(self.reference.limits(), &call);
        self.reference.call(&call, needed)
    }

    /// Whether the answer differs from the last one of this read; it is the last one now.
    fn is_news(&mut self, title: &str, answer: &Answer) -> bool {
        let text = text(answer);
        self.last.insert(title.to_string(), text.clone()) != Some(text)
    }

    fn single(&mut self, title: &str, call: Call, lines: &mut Vec<String>) -> Result<(), String> {
        let answer = self.read(call)?;
        if self.is_news(title, &answer) {
            lines.push(format!("  {title}: {}", text(&answer)));
        }
        Ok(())
    }

    fn table(
        &mut self,
        name: &str,
        most: u64,
        call: fn(u64) -> Call,
        lines: &mut Vec<String>,
    ) -> Result<(), String> {
        for position in 0..most {
            let title = format!("{name} {position}");
            let answer = self.read(call(position))?;
            let last = self.last.get(&title).map(String::as_str);
            if answer == Answer::None && matches!(last, None | Some("none")) {
                break;
            }
            if self.is_news(&title, &answer) {
                let mut line = format!("  {title}: {}", text(&answer));
                if let Answer::ThreadView(thread) = answer {
                    for place in 0..65 {
                        match self.read(Call::WaitedObject {
                            id: thread.id,
                            position: place,
                        })? {
                            Answer::None => break,
                            object => line += &format!(", {}", text(&object)),
                        }
                    }
                }
                lines.push(line);
            }
        }
        Ok(())
    }

    fn state(&mut self, keys: &[u64], lines: &mut Vec<String>) -> Result<(), String> {
        self.single("current", Call::Current, lines)?;
        self.table(
            "thread",
            THREADS,
            |position| Call::Threads { position },
            lines,
        )?;
        for &key in keys {
            self.single(&format!("owner {key}"), Call::MutexOwner { key }, lines)?;
            self.single(&format!("waiters {key}"), Call::MutexWaiters { key }, lines)?;
        }
        self.table(
            "event",
            POSITIONS,
            |position| Call::EventStates { position },
            lines,
        )?;
        self.table(
            "timer",
            POSITIONS,
            |position| Call::Timers { position },
            lines,
        )?;
        self.single("pending timer", Call::PendingTimerDpc, lines)?;
        self.single("timer initializations", Call::TimerInitializations, lines)?;
        self.table("dpc", POSITIONS, |position| Call::Dpcs { position }, lines)?;
        self.single("dpc initializations", Call::DpcInitializations, lines)?;
        self.table(
            "queued",
            POSITIONS,
            |position| Call::QueuedDpcs { position },
            lines,
        )?;
        self.single("active", Call::ActiveDpc, lines)?;
        self.single("next", Call::NextDpc, lines)?;
        self.single("policy", Call::DpcPolicy, lines)?;
        self.single("counters", Call::DpcCounters, lines)
    }
}
