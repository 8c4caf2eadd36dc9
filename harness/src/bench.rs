//! The time of a proved call as a ratio to the original's.
use std::hint::black_box;
use std::time::Instant;

const REPETITIONS: usize = 301;
const CALLS: u32 = 50_000;

pub fn heading() {
    println!(
        "{:<22}{:>12}{:>12}{:>10}",
        "median of", "proved ns", "Rust ns", "ratio"
    );
}

/// Prints the medians over several repetitions, each of which times both sides.
pub fn ratio<P, O>(name: &str, mut proved: impl FnMut() -> P, mut original: impl FnMut() -> O) {
    let mut times = [const { Vec::new() }; 3];
    for repetition in 0..=REPETITIONS {
        let (ours, theirs) = if repetition % 2 == 0 {
            let ours = nanoseconds(&mut proved);
            (ours, nanoseconds(&mut original))
        } else {
            let theirs = nanoseconds(&mut original);
            (nanoseconds(&mut proved), theirs)
        };
        // The first only warms up.
        if repetition > 0 {
            for (column, time) in times.iter_mut().zip([ours, theirs, ours / theirs]) {
                column.push(time);
            }
        }
    }
    let [ours, theirs, ratio] = times.map(median);
    println!("{name:<22}{ours:>12.2}{theirs:>12.2}{ratio:>10.2}");
}

fn nanoseconds<T>(call: &mut impl FnMut() -> T) -> f64 {
    let start = Instant::now();
    for _ in 0..CALLS {
        black_box(call());
    }
    start.elapsed().as_secs_f64() * 1e9 / f64::from(CALLS)
}

pub fn median(mut times: Vec<f64>) -> f64 {
    times.sort_by(f64::total_cmp);
    times[times.len() / 2]
}
