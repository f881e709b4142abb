//! Times of the plan ask on 512 steps in a chain, a fan and a lattice, fresh and stale.

use second::{limits, shapes, Answer, Ask};
use std::hint::black_box;
use std::time::{Duration, Instant};

const RUNS: usize = 3_000;

fn main() {
    for shape in shapes::all(limits::STEPS) {
        for ((age, ask), listed) in shape.plans().iter().zip([0, limits::STEPS]) {
            assert!(matches!(ask.answer(), Answer::List(list) if list.len() == listed));
            let times = measure(ask);
            println!(
                "{:8} {age}  median {:8.1} us  minimum {:8.1} us",
                shape.name,
                micros(times[RUNS / 2]),
                micros(times[0]),
            );
        }
    }
}

/// The times of all runs, rising.
fn measure(ask: &Ask) -> Vec<Duration> {
    let run = |_| {
        let start = Instant::now();
        black_box(black_box(ask).answer());
        start.elapsed()
    };
    let mut times: Vec<Duration> = (0..RUNS).map(run).collect();
    times.sort();
    times
}

fn micros(time: Duration) -> f64 {
    time.as_secs_f64() * 1e6
}
