//! How the time of an advance grows with the timers, and with those of them that are due.
use super::{Side, made, opened};
use crate::bench::median;
use crate::scheduler::proved::proved;
use crate::scheduler::room::Room;
use crate::scheduler::{Call, Limits, Location};
use emumee::pe::Architecture;
use emumee::scheduler::{Scheduler, TimerBacking};
use std::hint::black_box;
use std::time::Instant;

/// Timers, and due ones.
const SIZES: [(u64, u64); 9] = [
    (256, 0),
    (256, 256),
    (1024, 0),
    (1024, 64),
    (1024, 1024),
    (4096, 0),
    (4096, 64),
    (4096, 1024),
    (4096, 4096),
];
const REPETITIONS: usize = 51;
const BASE: u64 = 1 << 20;
const STEP: u64 = 64;
/// A prime above the number of timers.
const STRIDE: u64 = 7919;

pub fn run(name: &str, side: Side) {
    let heading = format!("advance_to, {name}");
    println!(
        "{heading:<28}{:>14}{:>14}{:>10}",
        "proved us", "Rust us", "ratio"
    );
    for (timers, due) in SIZES {
        row(side, timers, due);
    }
}

fn row(side: Side, timers: u64, due: u64) {
    let (words, scheduler) = armed(timers, due);
    let call = Call::AdvanceTo { time: due };
    let mut room = Room::unused();
    let (mut ours, mut theirs) = (Vec::new(), Vec::new());
    for _ in 0..REPETITIONS {
        let mut words = words.clone();
        let start = Instant::now();
        assert_eq!(black_box(side(room.most(&mut words), &call)), 0);
        ours.push(start.elapsed().as_secs_f64() * 1e6);
        let mut scheduler = scheduler.clone();
        let start = Instant::now();
        black_box(scheduler.advance_to(due)).expect("an advance");
        theirs.push(start.elapsed().as_secs_f64() * 1e6);
    }
    let (ours, theirs) = (median(ours), median(theirs));
    let name = format!("{timers} timers, {due} due");
    println!(
        "{name:<28}{ours:>14.1}{theirs:>14.1}{:>10.2}",
        ours / theirs
    );
}

/// A scheduler on both sides with as many timers, each with a DPC, of which so many are due at times
/// from 1 to their number, in no order.
fn armed(timers: u64, due: u64) -> (Vec<u64>, Scheduler) {
    let (mut words, mut reference) = opened(Limits::new(4, timers, timers));
    let mut call = |call: Call| {
        made(&mut reference, &call);
        assert_eq!(proved(Room::unused().most(&mut words), &call), 0);
    };
    call(Call::ConfigureDpcDispatch { arguments: [1, 2] });
    for index in 0..timers {
        let address = BASE + 2 * STEP * index;
        call(Call::InitializeTimer {
            location: at(address),
            manual: false,
        });
        call(Call::InitializeDpc {
            location: at(address + STEP),
            routine: 1,
            context: 2,
        });
        call(Call::SetTimer {
            address,
            due: match index < due {
                true => 1 + index * STRIDE % due,
                false => u64::MAX,
            },
            absolute: false,
            period: 0,
            dpc: address + STEP,
        });
    }
    (words, reference.scheduler().clone())
}

fn at(address: u64) -> Location {
    Location {
        address,
        architecture: Architecture::X64,
        backing: TimerBacking::Image {
            base: address,
            size: STEP,
        },
    }
}
