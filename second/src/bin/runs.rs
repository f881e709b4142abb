//! Runs the program on every case that lends one `build.ninja` alone, in a folder with that and its
//! `times.card` and with its targets on standard input, and compares what it writes, its exit status (1 for a refusal) and
//! what standard error has. The command is: runs PROGRAM. What a case does not give (`prints`) is
//! what the second planner's program writes. A file without bytes is once empty and once not there,
//! of which standard error has a line.

use second::cases::{files, folder, outputs, read, Case};
use second::tool::{status, Error};
use std::fs::{self, File};
use std::io;
use std::path::{Path, PathBuf};
use std::process::{Command, ExitCode, Output};

/// The files that the program reads by name.
fn named(case: &Case) -> [(&'static str, &[u8]); 2] {
    let manifest = case.manifest_alone().unwrap_or_default();
    [("build.ninja", manifest), ("times.card", &case.lent.card)]
}

/// Runs the program in a new folder of the case's files, if wanted without those that are empty.
fn run(program: &Path, room: &Path, case: &Case, without: bool) -> io::Result<Output> {
    fs::create_dir(room)?;
    for (name, bytes) in named(case) {
        if !(without && bytes.is_empty()) {
            fs::write(room.join(name), bytes)?;
        }
    }
    let targets = room.with_extension("targets");
    fs::write(&targets, &case.lent.targets)?;
    Command::new(program).current_dir(room).stdin(File::open(&targets)?).output()
}

/// What standard error has to have: a line for each file that is not there.
fn warnings(case: &Case, without: bool) -> String {
    named(case)
        .into_iter()
        .filter(|(_, bytes)| without && bytes.is_empty())
        .map(|(name, _)| format!("plan: {name} is read as empty: No such file or directory\n"))
        .collect()
}

/// What differs in one run; nothing if it writes and ends as it has to.
fn difference(case: &Case, without: bool, ran: &Output) -> Option<String> {
    let status = i32::from(ran.stdout.starts_with(b"refused "));
    let is_right =
        ran.status.code() == Some(status) && ran.stderr == warnings(case, without).into_bytes();
    let allowed = outputs(case);
    if is_right && allowed.contains(&ran.stdout) {
        return None;
    }
    let Case { name, origin, .. } = case;
    let expected = allowed.first().map(|bytes| bytes.escape_ascii().to_string());
    Some(format!(
        "{name} ({origin}): {}\n  expected {}\n  wrote    {}\n  said     {}",
        ran.status,
        expected.unwrap_or_default(),
        ran.stdout.escape_ascii(),
        ran.stderr.escape_ascii(),
    ))
}

fn run_all(program: &Path, room: &Path) -> Result<bool, Error> {
    let cases = read(&files(&folder())?)?;
    let (mut runs, mut differing) = (0, 0);
    for case in cases.iter().filter(|case| case.manifest_alone().is_some()) {
        let has_empty = named(case).iter().any(|(_, bytes)| bytes.is_empty());
        for without in if has_empty { &[false, true][..] } else { &[false] } {
            let ran = run(program, &room.join(runs.to_string()), case, *without);
            let ran = ran.map_err(|error| Error::Run(case.name.clone(), error))?;
            if let Some(difference) = difference(case, *without, &ran) {
                println!("{difference}");
                differing += 1;
            }
            runs += 1;
        }
    }
    println!("{runs} runs of the program, {differing} with differences");
    Ok(differing == 0)
}

/// Runs the program named in a folder that is gone afterwards.
fn run_named() -> Result<bool, Error> {
    let program = std::env::args_os().nth(1).ok_or(Error::Usage("runs PROGRAM"))?;
    let program = PathBuf::from(program);
    let program = fs::canonicalize(&program).map_err(|error| Error::File(program, error))?;
    let room = std::env::temp_dir().join(format!("runs-{}", std::process::id()));
    fs::create_dir(&room).map_err(|error| Error::File(room.clone(), error))?;
    let outcome = run_all(&program, &room);
    let _ = fs::remove_dir_all(&room);
    outcome
}

fn main() -> ExitCode {
    status(run_named())
}
