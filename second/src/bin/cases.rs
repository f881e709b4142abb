//! Compares the second planner with the case files: those named, or else all of `/cases`. For other
//! tools it prints instead, with `--packed`, every plan and text ask and its expected answer, with
//! `--texts` every texts ask and its expected answer, or, with `--programs`, what the program has to
//! write.

use second::cases::{ask_lines, check, files, folder, program_line, read, texts_lines, Case};
use second::tool::{status, Error};
use std::path::PathBuf;
use std::process::ExitCode;

fn run() -> Result<bool, Error> {
    let (options, named): (Vec<_>, Vec<_>) =
        std::env::args().skip(1).partition(|word| word.starts_with("--"));
    let named: Vec<_> = named.into_iter().map(PathBuf::from).collect();
    let cases = read(&if named.is_empty() { files(&folder())? } else { named })?;
    match options.iter().map(String::as_str).collect::<Vec<_>>()[..] {
        [] => Ok(compare(&cases)),
        ["--packed"] => {
            cases.iter().flat_map(ask_lines).for_each(|line| println!("{line}"));
            Ok(true)
        }
        ["--texts"] => {
            cases.iter().flat_map(texts_lines).for_each(|line| println!("{line}"));
            Ok(true)
        }
        ["--programs"] => {
            cases.iter().filter_map(program_line).for_each(|line| println!("{line}"));
            Ok(true)
        }
        _ => Err(Error::Usage("cases [--packed | --texts | --programs] [FILE ..]")),
    }
}

/// Prints how the second planner differs from the cases; whether it does not.
fn compare(cases: &[Case]) -> bool {
    let mut differing = 0;
    for case in cases {
        let differences = check(case);
        differing += usize::from(!differences.is_empty());
        differences.iter().for_each(|difference| println!("{difference}"));
    }
    println!("{} cases, {differing} with differences", cases.len());
    differing == 0
}

fn main() -> ExitCode {
    status(run())
}
