//! How the benchmarks measure: rounds of each side in turn, in one process; the median and the
//! minimum are told.

use std::hint::black_box;
use std::time::{Duration, Instant};

const ROUNDS: usize = 201;

/// No more than so long is measured, but for a first round.
const LONGEST: Duration = Duration::from_secs(2);

/// The median and the minimum time of one call.
#[derive(Clone, Copy)]
pub struct Times {
    pub median: Duration,
    pub least: Duration,
}

fn sorted(mut times: Vec<Duration>) -> Times {
    times.sort();
    Times { median: times[times.len() / 2], least: times[0] }
}

/// Measures two functions against each other, a call of each in every round; slow ones in fewer
/// rounds.
pub fn both<A, B>(ours: impl FnMut() -> A, theirs: impl FnMut() -> B) -> (Times, Times) {
    rounds(ROUNDS, ours, theirs)
}

/// The same in so many rounds at most.
pub fn rounds<A, B>(
    rounds: usize,
    mut ours: impl FnMut() -> A,
    mut theirs: impl FnMut() -> B,
) -> (Times, Times) {
    let (mut a, mut b) = (Vec::new(), Vec::new());
    let started = Instant::now();
    while a.is_empty() || a.len() < rounds && started.elapsed() < LONGEST {
        let began = Instant::now();
        black_box(ours());
        a.push(began.elapsed());
        let began = Instant::now();
        black_box(theirs());
        b.push(began.elapsed());
    }
    (sorted(a), sorted(b))
}

/// Prints a row: ours, the second planner's, and the ratios of the medians and of the minima.
pub fn row(name: &str, ours: Times, theirs: Times) {
    row_of(name, ["ours", "second"], ours, theirs);
}

/// The same of any two, by their names.
pub fn row_of(name: &str, [one, other]: [&str; 2], ours: Times, theirs: Times) {
    let micros = |d: Duration| d.as_nanos() as f64 / 1_000.0;
    let ratio = |a: Duration, b: Duration| a.as_secs_f64() / b.as_secs_f64();
    println!(
        "{name:62} {one} {:9.2} / {:9.2} us   {other} {:9.2} / {:9.2} us   ratio {:6.2} / {:6.2}",
        micros(ours.median),
        micros(ours.least),
        micros(theirs.median),
        micros(theirs.least),
        ratio(ours.median, theirs.median),
        ratio(ours.least, theirs.least)
    );
}
