//! `differ SEED COUNT` runs so many asks of both planners, from a seed on, and stops at the first
//! on which they differ: it prints the difference and the ask, made as small as it stays one. The
//! asks of any run can be run again by their seed.

use compare::asks::{compare, run, Counts};
use compare::minimise::minimise;
use second::bundle::{self, Bundle};
use second::kind::Kind;
use second::Ask;
use std::process::ExitCode;
use std::time::Instant;

/// How often the count so far is told.
const TOLD: u64 = 500_000;

fn main() -> ExitCode {
    let numbers: Option<Vec<u64>> =
        std::env::args().skip(1).map(|argument| argument.parse().ok()).collect();
    let Some(&[seed, count]) = numbers.as_deref() else {
        eprintln!("usage: differ SEED COUNT");
        return ExitCode::from(2);
    };
    let began = Instant::now();
    let mut next = TOLD;
    let progress = |counts: &Counts| {
        let done: u64 = counts.values().sum();
        if done >= next {
            eprintln!("{done} asks, {} s", began.elapsed().as_secs());
            next += TOLD;
        }
    };
    match run(seed, count, progress) {
        Ok(counts) => {
            for kind in Kind::all() {
                println!("{kind:10} {:9}", counts.get(&kind).unwrap_or(&0));
            }
            println!(
                "{count} asks from seed {seed}, no difference, {} s",
                began.elapsed().as_secs()
            );
            ExitCode::SUCCESS
        }
        Err(differing) => {
            println!("{}", differing.difference);
            show("first", &differing.ask);
            show("minimised", &minimise(differing.ask, |ask| compare(ask).is_err()));
            ExitCode::FAILURE
        }
    }
}

/// An ask as a line, the second planner's answer, and the files and header lists by name.
fn show(which: &str, ask: &Ask) {
    println!("-- {which}: {ask}");
    if let Err(difference) = compare(ask) {
        println!("-- {difference}; the second planner: {}", ask.answer());
    }
    for (bytes, counts) in
        [(&ask.lent.bundle, bundle::MANIFEST), (&ask.lent.headers, bundle::HEADERS)]
    {
        let bundle = Bundle::read(bytes, counts);
        for (name, text) in bundle.map_or(Vec::new(), |bundle| bundle.records) {
            println!("-- {}\n{}", name.escape_ascii(), String::from_utf8_lossy(text));
        }
    }
}
