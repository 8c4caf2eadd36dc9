//! The calls of the lists by kind: the time of each call alone, less that of an empty measurement
//! beside it, since the shortest calls take no longer than that does.
use super::{List, Original, REPETITIONS, SIDES, TIME, original};
use crate::bench::median;
use crate::scheduler::Call;
use crate::scheduler::room::Room;
use emumee::scheduler::Object;
use std::collections::BTreeMap;
use std::hint::black_box;
use std::time::Instant;

/// The original, and the proved side's functions.
const COLUMNS: usize = 1 + SIDES.len();

#[derive(Default)]
struct Kind {
    calls: usize,
    refused: usize,
    /// In nanoseconds, over all calls of the kind: for each column a sum for each repetition.
    times: [Vec<f64>; COLUMNS],
}

pub fn run(threads: u64, lists: &[List]) {
    let heading = format!("{threads} threads, calls a second");
    print!("{heading:<28}{:>7}{:>9}{:>12}", "calls", "refused", "Rust");
    for (name, _) in SIDES {
        print!("{name:>12}{:>8}", "ratio");
    }
    println!();
    for (name, kind) in kinds(lists) {
        let Kind { calls, refused, .. } = kind;
        let [theirs, ours @ ..] = kind.times.map(|times| calls as f64 * 1e9 / median(times));
        print!("{name:<28}{calls:>7}{refused:>9}{theirs:>12.0}");
        for rate in ours {
            print!("{rate:>12.0}{:>8.2}", rate / theirs);
        }
        println!();
    }
}

fn kinds(lists: &[List]) -> BTreeMap<&'static str, Kind> {
    let mut kinds = BTreeMap::<_, Kind>::new();
    for list in lists {
        for ((call, _), refused) in list.calls.iter().zip(&list.refused) {
            let kind = kinds.entry(call.name()).or_default();
            kind.calls += 1;
            kind.refused += usize::from(*refused);
        }
    }
    let start = Instant::now();
    let mut repetitions = 0;
    while repetitions < REPETITIONS || start.elapsed() < TIME {
        repetitions += 1;
        for kind in kinds.values_mut() {
            for times in &mut kind.times {
                times.push(0.0);
            }
        }
        for list in lists {
            let columns = columns(list);
            for (column, times) in columns.iter().enumerate() {
                for ((call, _), time) in list.calls.iter().zip(times) {
                    let kind = kinds.get_mut(call.name()).expect("a kind of the lists");
                    *kind.times[column].last_mut().expect("a sum") += time;
                }
            }
        }
    }
    kinds
}

/// The time of each call of the list, column by column.
fn columns(list: &List) -> [Vec<f64>; COLUMNS] {
    let mut columns = [const { Vec::new() }; COLUMNS];
    let mut scheduler = list.scheduler.clone();
    let original = black_box(original as Original);
    columns[0] = times(list, |call, objects| {
        original(&mut scheduler, call, objects)
    });
    for (column, (_, side)) in columns[1..].iter_mut().zip(SIDES) {
        let side = black_box(side);
        let (mut words, mut room) = (list.words.clone(), Room::unused());
        *column = times(list, |call, _| side(room.most(&mut words), call));
    }
    columns
}

fn times<T>(list: &List, mut made: impl FnMut(&Call, &[Object]) -> T) -> Vec<f64> {
    let nanoseconds = |start: Instant| start.elapsed().as_nanos() as f64;
    let mut times = Vec::with_capacity(list.calls.len());
    for (call, objects) in &list.calls {
        let start = Instant::now();
        black_box(made(call, objects));
        let time = nanoseconds(start);
        times.push(time - nanoseconds(Instant::now()));
    }
    times
}
