//! The stack that an ask takes and that the program takes, by trial: the least, in KiB, with which
//! a thread asks all of [`compare::adversary`] and of the shapes, and under whose limit (`ulimit
//! -s`) the program plans those. The command is: stack [PROGRAM], of which `crates/plan/out/plan` is the
//! default.

use compare::asks::ours;
use compare::{adversary, folders};
use second::{shapes, Ask, Question, Wanted};
use std::path::PathBuf;
use std::process::{Command, Stdio};
use std::{env, fs, io};

/// No ask and no program is tried with more KiB.
const MOST: usize = 8 << 10;

/// All asks that are tried, with their names.
fn asks() -> Vec<(&'static str, Ask)> {
    let mut asks: Vec<_> = adversary::all().into_iter().map(|slow| (slow.name, slow.ask)).collect();
    for shape in shapes::all(512) {
        asks.extend(shape.plans().map(|(_, ask)| (shape.name, ask)));
        asks.push((shape.name, Ask::text(&shape.manifest[..], 511, Wanted::Command)));
    }
    asks
}

/// Asks all of one kind in a thread of so many KiB.
fn ask(kind: &str, kib: usize) {
    let is_asked = |ask: &Ask| matches!(ask.question, Question::Plan { .. }) == (kind == "plan");
    let asks: Vec<_> = asks().into_iter().map(|(_, ask)| ask).filter(is_asked).collect();
    let thread = std::thread::Builder::new().stack_size(kib << 10);
    thread.spawn(move || asks.iter().map(ours).count()).expect("a thread").join().expect("asks");
}

/// Whether a command comes to a good end.
fn ends(command: &mut Command) -> bool {
    let command = command.stdin(Stdio::null()).stdout(Stdio::null()).stderr(Stdio::null());
    command.status().expect("a process").success()
}

/// The least number of KiB, in steps of 4, by which it comes to a good end.
fn least(mut good: impl FnMut(usize) -> bool) -> usize {
    let (mut low, mut high) = (0, MOST / 4);
    assert!(good(high * 4), "{MOST} KiB are not enough");
    while high - low > 1 {
        let middle = (low + high) / 2;
        if good(middle * 4) {
            high = middle;
        } else {
            low = middle;
        }
    }
    high * 4
}

/// The same of the program in all of these folders. The limit holds for the program alone: the
/// shell sets it and then becomes the program.
fn least_of_program(program: &str, rooms: &[PathBuf]) -> usize {
    let good = |kib: usize, room: &PathBuf| {
        let line = format!("ulimit -s {kib} && exec \"$0\"");
        ends(Command::new("sh").current_dir(room).args(["-c", &line, program]))
    };
    rooms.iter().fold(4, |most, room| {
        if good(most, room) {
            most
        } else {
            most.max(least(|kib| good(kib, room)))
        }
    })
}

fn main() -> io::Result<()> {
    let words: Vec<String> = env::args().collect();
    if let [_, _, kind, kib] = &words[..] {
        ask(kind, kib.parse().expect("a number"));
        return Ok(());
    }
    let here = env::current_exe()?;
    for kind in ["plan", "text"] {
        let kib = least(|kib| ends(Command::new(&here).args(["--ask", kind, &kib.to_string()])));
        println!("{kind}: {kib} KiB");
    }
    let program = words
        .get(1)
        .map_or(concat!(env!("CARGO_MANIFEST_DIR"), "/../crates/plan/out/plan"), |word| word);
    let program = fs::canonicalize(program)?.display().to_string();
    let folder = env::temp_dir().join(format!("stack-{}", std::process::id()));
    let mut rooms = Vec::new();
    for (number, (name, ask)) in asks().iter().enumerate() {
        rooms.extend(folders::write(&folder, number, name, ask)?);
    }
    println!("the program: {} KiB", least_of_program(&program, &rooms));
    fs::remove_dir_all(&folder)
}
