//! Lists of calls with what the originals answer and show, for the program `library_replay`.
mod line;
mod made;
mod met;
mod shown;
mod special;

use crate::random::Random;
use crate::scheduler::draw::Draw;
use crate::scheduler::reference::{Lengths, Reference};
use crate::scheduler::{Call, Limits};
use made::Made;
use shown::Told;
use std::collections::BTreeSet;
use std::fs;
use std::path::Path;

/// What a list has met: pairs of a call and an answer, and states of what there is.
type Met = BTreeSet<String>;

/// Writes `stdin`, lists of calls, and `stdout`, what the originals answer and show, to the folder:
/// of as many random lists those that together meet all that any of them meets, each up to the last
/// call that adds something, and the lists that no random one makes.
pub fn write(count: u64, folder: &Path, random: &Random) -> Result<(), String> {
    let lists: Vec<Vec<Made>> = (0..count).map(|_| list(random)).collect::<Result<_, _>>()?;
    let told: Vec<Told> = lists
        .iter()
        .map(|list| shown::told(list))
        .collect::<Result<_, _>>()?;
    let mut met = Met::new();
    let mut stored = Vec::new();
    for list in special::lists() {
        met.extend(shown::told(&list)?.met.into_iter().flatten());
        stored.push(list);
    }
    while let Some(best) = best(&told, &met) {
        let mut length = 0;
        for (index, features) in told[best].met.iter().enumerate() {
            let known = met.len();
            met.extend(features.iter().cloned());
            if met.len() > known {
                length = index + 1;
            }
        }
        stored.push(lists[best][..length].to_vec());
    }
    let mut texts = [String::new(), String::new()];
    let mut lines = 0;
    for list in &stored {
        let told = shown::told_from(list, lines)?;
        lines += told.lines.len() as u64;
        for (text, lines) in texts.iter_mut().zip([told.lines, told.output]) {
            *text += &(lines.join("\n") + "\n");
        }
    }
    fs::create_dir_all(folder).map_err(|error| format!("{}: {error}", folder.display()))?;
    for (name, text) in ["stdin", "stdout"].into_iter().zip(texts) {
        let path = folder.join(name);
        fs::write(&path, text).map_err(|error| format!("{}: {error}", path.display()))?;
    }
    println!("{} lists, {lines} lines, which meet:", stored.len());
    for feature in met {
        println!("  {feature}");
    }
    Ok(())
}

/// The list that adds most for its length, if any adds something.
fn best(told: &[Told], met: &Met) -> Option<usize> {
    let gain = |told: &Told| {
        let mut new = Met::new();
        let mut length = 0;
        for (index, features) in told.met.iter().enumerate() {
            let known = new.len();
            new.extend(features.difference(met).cloned());
            if new.len() > known {
                length = index + 1;
            }
        }
        (new.len(), length)
    };
    let gains: Vec<(usize, usize)> = told.iter().map(gain).collect();
    let rate = |index: &usize| gains[*index].0 * 10_000 / gains[*index].1.max(1);
    (0..told.len())
        .filter(|index| gains[*index].0 > 0)
        .max_by_key(rate)
}

/// A random list, which begins with an opening that succeeds.
fn list(random: &Random) -> Result<Vec<Made>, String> {
    let (limits, keys, additions) = match random.below(32) {
        0 => (Limits::new(256, 64, 64), 20, 60),
        1..=3 => (Limits::new(16, 64, 64), 12, random.pick(&[0, 20, 40])),
        4..=23 => (
            Limits::new(4, 8, 4),
            random.pick(&[2, 5, 9]),
            random.pick(&[0, 4, 10]),
        ),
        24 => (Limits::new(1, 0, 0), 2, 0),
        25 => (Limits::new(2, 1, 0), 3, 0),
        _ => (
            Limits::new(1 + random.below(6), random.below(9), random.below(6)),
            1 + random.below(8),
            0,
        ),
    };
    let draw = Draw::new(random, keys);
    let opening = Call::Open {
        priority: 1 + random.below(31),
        limits,
    };
    let mut reference = Reference::new(1, limits);
    let mut list = Vec::new();
    let mut push = |reference: &mut Reference, call: Call| -> Result<(), String> {
        let lent = lengths(random, reference.limits(), &call);
        reference.call(&call, lent)?;
        list.push(Made::once(call, lent));
        Ok(())
    };
    let needed = Lengths::needed(limits, &opening);
    reference.call(&opening, needed)?;
    let first = Made::once(opening, needed);
    if random.below(8) < 6 {
        push(&mut reference, draw.configure())?;
    }
    for index in 0..additions {
        push(&mut reference, draw.addition(index, limits))?;
    }
    for _ in 0..random.pick(&[0, 0, additions / 4, additions / 2]) {
        let state = reference.state();
        push(&mut reference, draw.arming(&state))?;
    }
    for _ in 0..20 + random.below(120) {
        let (state, limits) = (reference.state(), reference.limits());
        // A second opening is left to the first list of all, so that each list keeps its limits.
        match draw.any_call(&state, limits) {
            Call::Open { .. } => {}
            call => push(&mut reference, call)?,
        }
        if state.is_stuck() && random.once_in(16) {
            break;
        }
    }
    list.insert(0, first);
    Ok(list)
}

/// Mostly as much as is needed, now and then less of an output.
fn lengths(random: &Random, limits: Limits, call: &Call) -> Lengths {
    let usual = Lengths::needed(limits, call);
    match call {
        Call::Dispatch if random.once_in(16) => Lengths {
            waiting: usual.waiting - 1,
            ..usual
        },
        _ if call.answers_image() && random.once_in(8) => Lengths {
            bytes: usual.bytes - 1,
            ..usual
        },
        _ => usual,
    }
}
