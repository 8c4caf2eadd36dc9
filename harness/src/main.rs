//! Compares the proved library with the Rust originals that it ports.
mod bench;
mod clock;
#[path = "../../bindings/rust/src/ffi.rs"]
mod ffi;
mod library;
mod quiet;
mod random;
mod scheduler;
mod script;
mod tally;

use random::Random;
use std::path::Path;
use std::process::ExitCode;
use std::{env, fs};

const CALLS: u64 = 1_000_000;
const SEED: u64 = 1;
const USAGE: &str = "usage: run [--only clock|scheduler] [CALLS [SEED]]
       run --sample STEPS FILE [SEED]
       run --scripts COUNT FOLDER [SEED]
       run --library COUNT FOLDER [SEED]
       bench";

fn main() -> ExitCode {
    quiet::install();
    let words: Vec<String> = env::args().skip(1).collect();
    let words: Vec<&str> = words.iter().map(String::as_str).collect();
    let done = match words[..] {
        ["--bench"] => {
            benchmark();
            Ok(())
        }
        ["--sample", steps, file] => sample(steps, file, None),
        ["--sample", steps, file, seed] => sample(steps, file, Some(seed)),
        ["--scripts", count, folder] => scripts(count, folder, None),
        ["--scripts", count, folder, seed] => scripts(count, folder, Some(seed)),
        ["--library", count, folder] => library(count, folder, None),
        ["--library", count, folder, seed] => library(count, folder, Some(seed)),
        ["--only", part, ref rest @ ..] => compare(&[part], rest),
        ref rest => compare(&["clock", "scheduler"], rest),
    };
    match done {
        Ok(()) => ExitCode::SUCCESS,
        Err(message) => {
            eprintln!("{message}");
            ExitCode::FAILURE
        }
    }
}

fn compare(parts: &[&str], rest: &[&str]) -> Result<(), String> {
    let (calls, seed) = match *rest {
        [] => (CALLS, SEED),
        [calls] => (number(calls)?, SEED),
        [calls, seed] => (number(calls)?, number(seed)?),
        _ => return Err(USAGE.to_string()),
    };
    for part in parts {
        let random = Random::new(seed);
        let heading = format!("{part}, seed {seed}");
        let tally = match *part {
            "clock" => clock::compare::run(calls, &random).map(|tally| tally.to_string()),
            "scheduler" => scheduler::compare::run(calls, &random).map(|tally| tally.to_string()),
            _ => return Err(USAGE.to_string()),
        };
        let tally = tally.map_err(|difference| format!("{heading}\n{difference}"))?;
        println!("{heading}\n{tally}no other difference");
    }
    Ok(())
}

fn sample(steps: &str, file: &str, seed: Option<&str>) -> Result<(), String> {
    let steps = number(steps)? as usize;
    let seed = seed.map_or(Ok(SEED), number)?;
    let lines = clock::sample::lines(steps, &Random::new(seed))?;
    let text: String = lines.iter().map(|line| format!("{line}\n")).collect();
    fs::write(file, text).map_err(|error| format!("{file}: {error}"))?;
    print!("{}", clock::sample::tally(&lines));
    Ok(())
}

fn scripts(count: &str, folder: &str, seed: Option<&str>) -> Result<(), String> {
    let seed = seed.map_or(Ok(SEED), number)?;
    script::write(number(count)?, Path::new(folder), &Random::new(seed))
}

fn library(count: &str, folder: &str, seed: Option<&str>) -> Result<(), String> {
    let seed = seed.map_or(Ok(SEED), number)?;
    library::write(number(count)?, Path::new(folder), &Random::new(seed))
}

fn benchmark() {
    bench::heading();
    clock::bench::run();
    println!();
    scheduler::bench::run();
}

fn number(word: &str) -> Result<u64, String> {
    word.parse()
        .map_err(|_| format!("not a number: {word}\n{USAGE}"))
}
