//! The same random calls on the proved scheduler and on the original, in calls a second.
mod advance;
mod kinds;
mod unguarded;

use super::answer::Answer;
use super::draw::Draw;
use super::original::{objects, original};
use super::proved::{Side, proved};
use super::reference::{Lengths, Reference};
use super::room::Room;
use super::words;
use super::{Call, Limits};
use crate::bench::median;
use crate::random::Random;
use emumee::scheduler::{Object, Scheduler, SchedulerError};
use std::hint::black_box;
use std::time::{Duration, Instant};
use unguarded::unguarded;

/// The proved side's functions: as exported, and without the check of the words' form.
const SIDES: [(&str, Side); 2] = [("guarded", proved), ("unguarded", unguarded)];
const THREADS: [u64; 3] = [4, 64, 256];
/// How many calls are made of each list of calls, and how many of all lists together.
const LIST: usize = 500;
const CALLS: usize = 5000;
/// Each row is measured for as long, and as often at least.
const TIME: Duration = Duration::from_secs(2);
const REPETITIONS: usize = 5;

type Original = fn(&mut Scheduler, &Call, &[Object]) -> Result<Answer, SchedulerError>;

pub fn run() {
    println!(
        "{:<28}{:>14}{:>14}{:>10}",
        "calls a second, median of", "proved", "Rust", "ratio"
    );
    for threads in THREADS {
        let lists = lists(threads);
        for (name, side) in SIDES {
            row(&format!("{threads} threads, {name}"), side, &lists);
        }
    }
    for threads in THREADS {
        println!();
        kinds::run(threads, &lists(threads));
    }
    for (name, side) in SIDES {
        println!();
        advance::run(name, side);
    }
}

/// A scheduler on both sides, and calls on it.
struct List {
    words: Vec<u64>,
    scheduler: Scheduler,
    calls: Vec<(Call, Vec<Object>)>,
    /// Which of the calls are refused.
    refused: Vec<bool>,
    /// The original at the end.
    end: Reference,
}

fn lists(threads: u64) -> Vec<List> {
    let random = Random::new(threads);
    let mut lists = Vec::new();
    let mut calls = 0;
    while calls < CALLS {
        let list = List::new(&random, threads);
        calls += list.calls.len();
        lists.push(list);
    }
    lists
}

impl List {
    /// Calls on as many threads, and up to as many objects and DPCs.
    fn new(random: &Random, threads: u64) -> Self {
        let limits = Limits::new(threads, threads, threads);
        let draw = Draw::new(random, threads);
        let (mut words, mut reference) = opened(limits);
        let threads = (1..threads).map(|_| Call::CreateThread { priority: 8 });
        let others = (0..2 * limits.objects as usize).map(|i| draw.addition(i, limits));
        let additions = [draw.configure()].into_iter().chain(threads).chain(others);
        for call in additions {
            if reference.foretold(&call).is_none() {
                made(&mut reference, &call);
                proved(Room::unused().most(&mut words), &call);
            }
        }
        let scheduler = reference.scheduler().clone();
        let (mut calls, mut refused) = (Vec::new(), Vec::new());
        while calls.len() < LIST {
            let state = reference.state();
            let call = draw.call(&state, limits);
            if state.is_stuck() && random.once_in(8) {
                break;
            }
            if call.opens() || call.reads() || reference.foretold(&call).is_some() {
                continue;
            }
            let answer = made(&mut reference, &call);
            refused.push(matches!(answer, Answer::Refused(_)));
            let objects = objects(&call).expect("a list that the original can be given");
            calls.push((call, objects));
        }
        Self {
            words,
            scheduler,
            calls,
            refused,
            end: reference,
        }
    }

    fn proved(&self, side: Side) -> Duration {
        let limits = self.end.limits();
        let mut words = self.words.clone();
        let mut room = Room::unused();
        let start = Instant::now();
        for (call, _) in &self.calls {
            black_box(side(room.most(&mut words), call));
        }
        let time = start.elapsed();
        let state = words::state(&words, limits).expect("a state");
        assert_eq!(state, self.end.clone().state());
        time
    }

    fn original(&self, original: Original) -> Duration {
        let mut scheduler = self.scheduler.clone();
        let start = Instant::now();
        for (call, objects) in &self.calls {
            let _ = black_box(original(&mut scheduler, call, objects));
        }
        start.elapsed()
    }
}

fn opened(limits: Limits) -> (Vec<u64>, Reference) {
    let mut words = vec![0; limits.words()];
    let priority = 8;
    let opening = Call::Open {
        priority: priority.into(),
        limits,
    };
    assert_eq!(proved(Room::unused().most(&mut words), &opening), 0);
    (words, Reference::new(priority, limits))
}

fn made(reference: &mut Reference, call: &Call) -> Answer {
    let lent = Lengths::needed(reference.limits(), call);
    reference.call(call, lent).expect("an answer")
}

fn row(name: &str, side: Side, lists: &[List]) {
    let calls: usize = lists.iter().map(|list| list.calls.len()).sum();
    let rate = |time: Duration| calls as f64 / time.as_secs_f64();
    let (side, original) = black_box((side, original as Original));
    let (mut ours, mut theirs) = (Vec::new(), Vec::new());
    let start = Instant::now();
    while ours.len() < REPETITIONS || start.elapsed() < TIME {
        ours.push(rate(lists.iter().map(|list| list.proved(side)).sum()));
        theirs.push(rate(lists.iter().map(|list| list.original(original)).sum()));
    }
    let (ours, theirs) = (median(ours), median(theirs));
    let ratio = ours / theirs;
    println!("{name:<28}{ours:>14.0}{theirs:>14.0}{ratio:>10.4}");
}
