//! Planted faults: each edit of `faults/` is made in the planner's source, the planner is compiled
//! and put to the cases that the edit names, and these must notice it. So the cases are shown to
//! tell right from wrong.
//!
//! A fault within bodies of functions stands in one copy of the planner with all others: there a
//! body is chosen by the fault's number when it runs. Any other fault has a copy of its own.

use second::cases::{files, folder, read, Case, Expected};
use second::Answer;
use std::collections::BTreeMap;
use std::error::Error;
use std::fmt::{self, Display, Formatter};
use std::fs::{self, File};
use std::path::{Path, PathBuf};
use std::process::Command;
use std::sync::atomic::{AtomicUsize, Ordering};
use std::thread;

/// How many copies with a fault of their own are compiled in one call: they share most of what a
/// call costs.
const BATCH: usize = 7;

/// A fault: the file `faults/NAME.edit`.
#[derive(Default)]
struct Fault {
    name: String,
    /// Cases that must differ (`noticed by NAME ..`).
    noticed_by: Vec<String>,
    edits: Vec<Edit>,
}

/// A replaced text: after `in FILE` the old text on lines begun with `-`, then the new one on lines
/// begun with `+`.
#[derive(Default)]
struct Edit {
    file: String,
    old: Vec<String>,
    new: Vec<String>,
}

/// Source files by their path in `src`.
type Source = BTreeMap<PathBuf, String>;

/// Why a fault can't be planted.
#[derive(Debug)]
enum Misfit {
    /// A line of the fault's file, counted from 1, has no form.
    Line(usize),
    /// It names no case that notices it.
    Unnoticed,
    /// There is no such source file.
    NoFile(String),
    /// The old text does not stand in its file once.
    Times { file: String, times: usize, old: String },
}

impl Display for Misfit {
    fn fmt(&self, f: &mut Formatter) -> fmt::Result {
        match self {
            Misfit::Line(line) => write!(f, "line {line} is not understood"),
            Misfit::Unnoticed => write!(f, "it names no case"),
            Misfit::NoFile(file) => write!(f, "there is no file {file}"),
            Misfit::Times { file, times, old } => write!(f, "{file} has {times} times:\n{old}"),
        }
    }
}

impl Error for Misfit {}

impl Fault {
    fn parse(name: String, content: &str) -> Result<Fault, Misfit> {
        let mut fault = Fault { name, ..Fault::default() };
        for (number, line) in (1..).zip(content.lines()) {
            fault.line(line).ok_or(Misfit::Line(number))?;
        }
        if fault.noticed_by.is_empty() {
            return Err(Misfit::Unnoticed);
        }
        Ok(fault)
    }

    /// Takes a line; `in FILE` stands before a replaced text.
    fn line(&mut self, line: &str) -> Option<()> {
        if let Some(names) = line.strip_prefix("noticed by ") {
            self.noticed_by.extend(names.split(' ').map(str::to_string));
        } else if let Some(file) = line.strip_prefix("in ") {
            self.edits.push(Edit { file: file.to_string(), ..Edit::default() });
        } else if let Some(old) = line.strip_prefix('-') {
            self.edits.last_mut()?.old.push(old.to_string());
        } else if let Some(new) = line.strip_prefix('+') {
            self.edits.last_mut()?.new.push(new.to_string());
        } else if !line.starts_with('#') {
            return None;
        }
        Some(())
    }

    /// Plants the fault; an old text must stand in its file exactly once.
    fn plant(&self, source: &Source) -> Result<Source, Misfit> {
        let mut source = source.clone();
        for Edit { file, old, new } in &self.edits {
            let content = source.get_mut(Path::new(file));
            let content = content.ok_or_else(|| Misfit::NoFile(file.clone()))?;
            let old = old.join("\n");
            let times = content.matches(&old).count();
            if times != 1 {
                return Err(Misfit::Times { file: file.clone(), times, old });
            }
            *content = content.replace(&old, &new.join("\n"));
        }
        Ok(source)
    }
}

fn here(path: &str) -> PathBuf {
    Path::new(env!("CARGO_MANIFEST_DIR")).join(path)
}

fn faults() -> Vec<Fault> {
    let paths = fs::read_dir(here("faults")).unwrap().map(|entry| entry.unwrap().path());
    let is_edit = |path: &PathBuf| path.extension().is_some_and(|ending| ending == "edit");
    let mut paths: Vec<_> = paths.filter(is_edit).collect();
    paths.sort();
    paths.iter().map(|path| fault(path)).collect()
}

fn fault(path: &Path) -> Fault {
    let name = path.file_stem().unwrap().to_string_lossy().into_owned();
    let fault = Fault::parse(name, &fs::read_to_string(path).unwrap());
    fault.unwrap_or_else(|misfit| panic!("{}: {misfit}", path.display()))
}

/// Modules that answer no ask: the copies are compiled without them, which takes half the time.
const APART: [&str; 7] = ["cases", "generate", "kind", "naive", "rng", "shapes", "tool"];

fn source() -> Source {
    let mut source = Source::new();
    read_source(Path::new(""), &mut source);
    source.retain(|path, _| {
        let first = path.iter().next().map(Path::new).and_then(Path::file_stem);
        first.is_some_and(|first| first != "bin" && APART.iter().all(|apart| first != *apart))
    });
    let library = source.get_mut(Path::new("lib.rs")).expect("the library's root");
    for module in APART {
        *library = library.replace(&format!("pub mod {module};\n"), "");
    }
    source
}

/// Takes the files of a folder of `src` into the source.
fn read_source(folder: &Path, source: &mut Source) {
    for entry in fs::read_dir(here("src").join(folder)).unwrap().map(Result::unwrap) {
        let path = folder.join(entry.file_name());
        if entry.file_type().unwrap().is_dir() {
            read_source(&path, source);
        } else {
            source.insert(path, fs::read_to_string(entry.path()).unwrap());
        }
    }
}

/// The copy that stands for the planner without a fault.
const NO_FAULT: usize = usize::MAX;

/// A source file cut where bodies of functions begin and end: every second part is a body. Bodies
/// are found by the layout of `cargo fmt`.
fn parts(content: &str) -> Vec<String> {
    let mut parts = vec![String::new()];
    // The indent of the function whose head or body is being read.
    let (mut indent, mut in_head) = (None, false);
    for line in content.lines() {
        let in_body = indent.is_some() && !in_head;
        if in_body && indent.is_some_and(|indent| line == format!("{indent}}}")) {
            indent = None;
            parts.push(String::new());
        } else if !in_body && is_function(line) {
            (indent, in_head) = (Some(&line[..line.len() - line.trim_start().len()]), true);
        }
        *parts.last_mut().unwrap() += &format!("{line}\n");
        if in_head && line.ends_with('{') {
            in_head = false;
            parts.push(String::new());
        } else if in_head && (line.ends_with(';') || line.ends_with("{}")) {
            (indent, in_head) = (None, false);
        }
    }
    parts
}

/// Whether a line begins a function.
fn is_function(line: &str) -> bool {
    let words = line.split_whitespace();
    words.take_while(|word| !word.contains('(') || word.starts_with("pub(")).any(|w| w == "fn")
}

/// Whether a body may be chosen when the program runs: not in a function that is also called when
/// it is compiled, nor where each body would have a type of its own.
fn may_choose(before: &str) -> bool {
    let head: Vec<_> = before.lines().rev().collect();
    let lines = head.iter().position(|line| is_function(line)).map_or(&head[..], |l| &head[..=l]);
    !lines.iter().any(|line| line.contains("const fn ") || line.contains("-> impl "))
}

/// For each source file the bodies that a fault replaces, by their place among the parts.
type Bodies = BTreeMap<PathBuf, BTreeMap<usize, String>>;

/// The bodies that differ; none where anything else does.
fn bodies(source: &Source, planted: &Source) -> Option<Bodies> {
    let mut bodies = Bodies::new();
    for (path, content) in source.iter().filter(|(path, content)| planted[*path] != **content) {
        let (old, new) = (parts(content), parts(&planted[path]));
        let mut differing = BTreeMap::new();
        for (place, (before, after)) in old.iter().zip(&new).enumerate() {
            if before != after {
                let is_body = place % 2 == 1 && may_choose(&old[place - 1]);
                is_body.then(|| differing.insert(place, after.clone()))?;
            }
        }
        (old.len() == new.len()).then(|| bodies.insert(path.clone(), differing))?;
    }
    Some(bodies)
}

/// The source with all of these faults, of which the number that `planted` gives chooses one.
fn with_all(source: &Source, faults: &[(usize, Bodies)]) -> Source {
    let mut chosen = source.clone();
    for (path, content) in &mut chosen {
        let mut parts = parts(content);
        for (place, part) in parts.iter_mut().enumerate() {
            let of = |bodies: &Bodies| bodies.get(path)?.get(&place).cloned();
            let arms = faults.iter().filter_map(|(number, bodies)| Some((number, of(bodies)?)));
            let arms = arms.map(|(number, body)| format!("{number} => {{\n{body}}}\n"));
            let arms: String = arms.collect();
            if !arms.is_empty() {
                *part = format!("match crate::planted() {{\n{arms}_ => {{\n{part}}}\n}}\n");
            }
        }
        *content = parts.concat();
    }
    chosen
}

/// Writes a copy of the library into a folder, as a module of another crate that answers asks.
fn write_module(module: &str, source: &Source, folder: &Path) {
    let answer = fs::read_to_string(here("faults/answer.rs")).unwrap();
    for (path, content) in source {
        let is_root = path == Path::new("lib.rs");
        let content = if is_root { format!("{content}{answer}") } else { content.clone() };
        let content = content.replace("crate::", &format!("crate::{module}::"));
        let path = folder.join(module).join(if is_root { Path::new("mod.rs") } else { path });
        fs::create_dir_all(path.parent().unwrap()).unwrap();
        fs::write(path, content).unwrap();
    }
}

/// What a program does: each line of its input has a copy's place, a fault's number and an ask.
const MAIN: &str = "
fn main() {
    std::panic::set_hook(Box::new(|_| {}));
    for line in std::io::stdin().lines().map(Result::unwrap) {
        let (place, rest) = line.split_once(' ').unwrap();
        let (fault, ask) = rest.split_once(' ').unwrap();
        let answer = COPIES[place.parse::<usize>().unwrap()];
        let fault = fault.parse().unwrap();
        println!(\"{}\", std::panic::catch_unwind(|| answer(fault, ask)).unwrap_or_default());
    }
}
";

/// A copy of the planner, and the numbers of the faults that stand in it.
struct Copy {
    source: Source,
    faults: Vec<usize>,
}

/// The copies of the planner: one with all faults that may stand together, and without any of
/// them, and one for each other fault.
fn copies(source: &Source, planted: &[Source]) -> Vec<Copy> {
    let (mut together, mut alone) = (Vec::new(), Vec::new());
    for (number, planted) in planted.iter().enumerate() {
        match bodies(source, planted) {
            Some(bodies) => together.push((number, bodies)),
            None => alone.push(Copy { source: planted.clone(), faults: vec![number] }),
        }
    }
    let faults = together.iter().map(|(number, _)| *number).chain([NO_FAULT]).collect();
    let mut copies = vec![Copy { source: with_all(source, &together), faults }];
    copies.extend(alone);
    copies
}

/// Compiles copies of the planner into one program.
fn compile(copies: &[Copy], folder: &Path) -> PathBuf {
    let (mut modules, mut answers) = (String::new(), String::new());
    for (place, copy) in copies.iter().enumerate() {
        let module = format!("copy_{place}");
        write_module(&module, &copy.source, folder);
        modules += &format!("mod {module};\n");
        answers += &format!("{module}::answer, ");
    }
    answers = format!("const COPIES: &[fn(usize, &str) -> String] = &[{answers}];\n");
    let (main, program) = (folder.join("main.rs"), folder.join("program"));
    fs::write(&main, modules + &answers + MAIN).unwrap();
    let compiled = Command::new(std::env::var_os("RUSTC").unwrap_or("rustc".into()))
        .args(["--edition", "2021", "-A", "warnings", "-C", "opt-level=0", "-C", "debuginfo=0"])
        .arg("-o")
        .args([&program, &main])
        .output()
        .unwrap();
    assert!(compiled.status.success(), "{}", String::from_utf8_lossy(&compiled.stderr));
    program
}

/// The answers of a program to asks, each put to the copy at a place, with a fault.
fn answers(program: &Path, asks: &[(usize, usize, &Asked)]) -> Vec<String> {
    let path = program.with_extension("asks");
    let line = |(place, fault, asked): &(usize, usize, &Asked)| {
        format!("{place} {fault} {}\n", asked.line)
    };
    fs::write(&path, asks.iter().map(line).collect::<String>()).unwrap();
    let run = Command::new(program).stdin(File::open(&path).unwrap()).output().unwrap();
    assert!(run.status.success(), "a faulty planner ended with {}", run.status);
    let answers: Vec<_> =
        String::from_utf8(run.stdout).unwrap().lines().map(str::to_string).collect();
    assert_eq!(answers.len(), asks.len(), "not every ask is answered");
    answers
}

/// The line of an ask, or of a run of the program, its expected answer and the name of its case.
struct Asked {
    line: String,
    expected: Expected,
    case: String,
}

fn asked(case: &Case) -> Vec<Asked> {
    let asked = |line, expected| Asked { line, expected, case: case.name.clone() };
    let asks = case.asks.iter();
    let asks = asks.map(|(question, expected)| (case.ask(question).to_string(), expected.clone()));
    let program = case
        .prints
        .clone()
        .map(|prints| (format!("program {}", case.lent), Expected::One(Answer::Text(prints))));
    asks.chain(program).map(|(line, expected)| asked(line, expected)).collect()
}

/// Whether the line that a copy answered is expected; one that panics answers an empty line.
fn is_expected(asked: &Asked, answer: &str) -> bool {
    answer.parse().is_ok_and(|answer| asked.expected.allows(&answer))
}

/// The cases that notice a difference when these asks are put to a copy with a fault.
fn differing<'a>(
    program: &Path,
    place: usize,
    fault: usize,
    asked: impl Iterator<Item = &'a Asked>,
) -> Vec<&'a str> {
    let asks: Vec<_> = asked.map(|asked| (place, fault, asked)).collect();
    let answers = answers(program, &asks);
    let pairs = asks.iter().zip(&answers);
    let differing = pairs.filter(|((_, _, asked), answer)| !is_expected(asked, answer));
    differing.map(|((_, _, asked), _)| asked.case.as_str()).collect()
}

/// What is wrong of the faults of one copy. The cases that a fault names are all that it has to be
/// put to; where one of them is silent it is put to every case, to tell which are not.
fn failures(
    program: &Path,
    place: usize,
    copy: &Copy,
    faults: &[Fault],
    asked: &[Asked],
) -> Vec<String> {
    let mut failures = Vec::new();
    for &number in &copy.faults {
        let Some(fault) = faults.get(number) else {
            let differing = differing(program, place, number, asked.iter());
            if !differing.is_empty() {
                failures.push(format!("without a fault these differ: {differing:?}"));
            }
            continue;
        };
        let named = asked.iter().filter(|asked| fault.noticed_by.contains(&asked.case));
        let noticing = differing(program, place, number, named);
        let silent = fault.noticed_by.iter().find(|case| !noticing.contains(&case.as_str()));
        if let Some(case) = silent {
            let all = differing(program, place, number, asked.iter());
            let name = &fault.name;
            failures.push(format!("{name}: {case} does not notice it; these do: {all:?}"));
        }
    }
    failures
}

#[test]
fn every_planted_fault_is_noticed() {
    let mut faults = faults();
    assert!(faults.len() >= 15, "only {} faults", faults.len());
    // by hand: only those whose name begins with FAULTS
    let only = std::env::var("FAULTS").unwrap_or_default();
    faults.retain(|fault| fault.name.starts_with(&only));
    let source = source();
    let (mut planted, mut misfits) = (Vec::new(), Vec::new());
    for fault in &faults {
        match fault.plant(&source) {
            Ok(source) => planted.push(source),
            Err(misfit) => misfits.push(format!("{}: {misfit}", fault.name)),
        }
    }
    assert!(misfits.is_empty(), "{}", misfits.join("\n"));

    let place = Path::new(env!("CARGO_TARGET_TMPDIR")).join("faults");
    let _ = fs::remove_dir_all(&place);
    let cases = read(&files(&folder()).unwrap()).unwrap();
    let asked: Vec<_> = cases.iter().flat_map(asked).collect();
    let copies = copies(&source, &planted);
    let (together, alone) = copies.split_at(1);
    let batches: Vec<_> = [together].into_iter().chain(alone.chunks(BATCH)).collect();

    let next = AtomicUsize::new(0);
    let work = || {
        let mut wrong = Vec::new();
        loop {
            let number = next.fetch_add(1, Ordering::Relaxed);
            let Some(batch) = batches.get(number) else {
                return wrong;
            };
            let folder = place.join(number.to_string());
            let program = compile(batch, &folder);
            for (place, copy) in batch.iter().enumerate() {
                wrong.extend(failures(&program, place, copy, &faults, &asked));
            }
        }
    };
    let workers = thread::available_parallelism().map_or(2, usize::from);
    let failures: Vec<String> = thread::scope(|scope| {
        let threads: Vec<_> = (0..workers).map(|_| scope.spawn(work)).collect();
        threads.into_iter().flat_map(|thread| thread.join().unwrap()).collect()
    });
    assert!(failures.is_empty(), "{}", failures.join("\n"));
    let _ = fs::remove_dir_all(&place);
}
