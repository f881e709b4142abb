//! Prints random asks, one a line, each with the second planner's answer after ` -> `.
//! The command is: generate [--small] [FIRST_SEED [COUNT]].

use second::generate::{ask, small_ask};
use second::tool::{status, Error};
use second::Ask;
use std::env;
use std::io::{self, BufWriter, Write};
use std::process::ExitCode;

fn run() -> Result<bool, Error> {
    let mut draw: fn(u64) -> Ask = ask;
    let mut numbers = Vec::new();
    for argument in env::args().skip(1) {
        match argument.parse() {
            Ok(number) => numbers.push(number),
            Err(_) if argument == "--small" => draw = small_ask,
            Err(_) => return Err(Error::Usage("generate [--small] [FIRST_SEED [COUNT]]")),
        }
    }
    let first = numbers.first().copied().unwrap_or(0);
    let count = numbers.get(1).copied().unwrap_or(1_000);
    print(draw, first, count).map_err(Error::Output)?;
    Ok(true)
}

fn print(draw: fn(u64) -> Ask, first: u64, count: u64) -> io::Result<()> {
    let mut out = BufWriter::new(io::stdout().lock());
    for seed in first..first + count {
        let ask = draw(seed);
        writeln!(out, "{ask} -> {}", ask.answer())?;
    }
    out.flush()
}

fn main() -> ExitCode {
    status(run())
}
