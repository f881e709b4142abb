//! The proved scanners, name table and card against the second planner's own: median and minimum of
//! a call, and the ratios of both. Nothing is cleared before a call but the
//! name table. Where the linker puts a short loop can double its time, so run it with aligned loops
//! too, which gives the second planner its best: `RUSTFLAGS="-C llvm-args=-align-loops=64" cargo
//! run --release --target-dir target/aligned --bin bench`.

use compare::card;
use compare::measure::{both, row};
use compare::names::{one_bucket, orders, Added, Names};
use compare::scan;
use second::bytes::{class, Class};
use second::line::{self, Opening, Statement};
use second::scan::Scanner;
use std::collections::HashMap;

fn main() {
    scanners();
    names();
    cards();
}

/// A manifest of some 49 KB: rules, variables, steps with blocks, comments.
fn manifest() -> Vec<u8> {
    let mut manifest = Vec::new();
    for rule in 0..20 {
        let command = "gcc -MMD $cflags -I${root}/include -c $in -o $out";
        let keys = format!("  command = {command}\n  description = CC $out\n");
        manifest.extend(format!("rule cc{rule}\n{keys}").bytes());
    }
    for step in 0.. {
        let outputs = format!("out/module{step}/file{step}.o");
        let inputs = format!("src/module{step}/file$ {step}.c | include/a.h \\|| gen/dir{step}");
        let build = format!("build {outputs}: cc{} {inputs}", step % 20);
        let variable = format!("flags{step} = -O2 -Wall $cflags");
        let binding = format!("cflags = -DSTEP={step} ${{root}}");
        let lines = format!("# step {step}\n{variable}\n{build}\n  {binding}\n\n");
        if manifest.len() + lines.len() > 49_000 {
            return manifest;
        }
        manifest.extend(lines.bytes());
    }
    unreachable!()
}

fn scanners() {
    let manifest = manifest();
    let (ours, theirs) = both(
        || scan::bad_byte(&manifest),
        || {
            let forbidden = manifest.iter().position(|&b| class(b) == Class::Forbidden);
            let unended = manifest.last().is_some_and(|&b| b != b'\n');
            forbidden.or(unended.then_some(manifest.len()))
        },
    );
    row("manifest of 49 KB: the check under 3", ours, theirs);

    // the second planner has no function for the end of a joined line: it reads a line's bytes as a
    // value does
    let their_end = |start| match line::opening(&manifest, start) {
        Opening::Comment | Opening::Blank => line::after(&manifest, start),
        Opening::Indented | Opening::Plain => {
            let mut scan = Scanner::new(&manifest, start);
            scan.value().expect("sound dollars");
            scan.at() + 1
        }
    };
    let ends = |end: &dyn Fn(usize) -> usize| {
        let (mut start, mut lines) = (0, 0);
        while start < manifest.len() {
            start = end(start);
            lines += 1;
        }
        lines
    };
    let our_end = |start| scan::line_end(&manifest, start).expect("an end");
    assert_eq!(ends(&our_end), ends(&their_end));
    let (ours, theirs) = both(|| ends(&our_end), || ends(&their_end));
    row(&format!("manifest of 49 KB: {} line ends", ends(&our_end)), ours, theirs);

    let long: Vec<u8> = (0..1_000)
        .flat_map(|k| format!(" src/module{:02}/$dir/file{k:05}.c", k % 40).into_bytes())
        .chain(*b"\n")
        .collect();
    let line = &long[..long.len() - 1];
    let their_paths = || {
        let mut scan = Scanner::new(&long, 0);
        loop {
            scan.gap();
            match scan.peek() {
                None | Some(Class::Colon | Class::Pipe | Class::Newline) => return scan.at(),
                Some(_) => scan.path().expect("a sound path"),
            };
        }
    };
    assert_eq!(scan::paths(line, 0), Ok(their_paths()));
    let (ours, theirs) = both(|| scan::paths(line, 0), their_paths);
    row("build line of 1,000 paths: in one call", ours, theirs);
    let by_path = || {
        let mut at = scan::gap(line, 0);
        while at < line.len() {
            at = scan::gap(line, scan::path(line, at).expect("a sound path"));
        }
        at
    };
    let (ours, theirs) = both(by_path, their_paths);
    row("  a call for each, and a table", ours, theirs);

    let mut values = Vec::new();
    let mut start = 0;
    while start < manifest.len() {
        let value = match line::opening(&manifest, start) {
            Opening::Indented => {
                line::binding(&manifest, start).ok().map(|(binding, _)| binding.value)
            }
            Opening::Plain => match line::statement(&manifest, start).expect("a sound line").0 {
                Statement::Variable(binding) => Some(binding.value),
                _ => None,
            },
            _ => None,
        };
        values.extend(value);
        start = our_end(start);
    }
    let place = |value: &[u8]| value.as_ptr() as usize - manifest.as_ptr() as usize;
    let starts: Vec<usize> = values.iter().map(|value| place(value)).collect();
    let their_values = || {
        starts
            .iter()
            .map(|&start| Scanner::new(&manifest, start).value().map_or(0, <[u8]>::len))
            .sum::<usize>()
    };
    let (ours, theirs) = both(
        || values.iter().filter(|value| scan::bad_dollar(value).is_none()).count(),
        their_values,
    );
    row(&format!("manifest of 49 KB: {} values, a table for each", values.len()), ours, theirs);
}

fn paths() -> Vec<Vec<u8>> {
    (0..1_024).map(|k| format!("src/module{:02}/file{k:05}.c", k % 40).into_bytes()).collect()
}

/// The names as a list, each ended by a newline.
fn listing(names: &[Vec<u8>]) -> Vec<u8> {
    names.iter().flat_map(|name| name.iter().chain(b"\n")).copied().collect()
}

/// As the second planner has it: a map from the path to its number.
fn mapped(list: &[u8]) -> usize {
    let mut map: HashMap<&[u8], u32> = HashMap::new();
    for path in list.split(|&b| b == b'\n').filter(|path| !path.is_empty()) {
        let next = map.len() as u32;
        map.entry(path).or_insert(next);
    }
    map.len()
}

fn names() {
    let paths = paths();
    let mut table = Names::new(60_000, 2_048);
    let once = listing(&paths);
    let (ours, theirs) = both(|| table.add(&once), || mapped(&once));
    row("names: a list of 1,024 added", ours, theirs);

    let twice = [once.clone(), once].concat();
    let (ours, theirs) = both(|| table.add(&twice), || mapped(&twice));
    assert_eq!(table.answer(2_047), Added::Old(1_023));
    row("names: a list of 1,024 added, then found", ours, theirs);

    // ordinary paths of 3 to 30 bytes, and paths that are all in one bucket of the proved table
    for (kind, names) in [("", ordinary()), (" of one bucket", one_bucket(1_024))] {
        for (order, names) in orders(&names) {
            let once = listing(&names);
            let (ours, theirs) = both(|| table.add(&once), || mapped(&once));
            assert_eq!(table.answer(1_023), Added::New(1_023));
            row(&format!("names{kind}: 1,024 {order} added"), ours, theirs);
            let twice = [once.clone(), once].concat();
            let (ours, theirs) = both(|| table.add(&twice), || mapped(&twice));
            assert_eq!(table.answer(2_047), Added::Old(1_023));
            row(&format!("names{kind}: 1,024 {order} added, then found"), ours, theirs);
        }
    }
}

fn ordinary() -> Vec<Vec<u8>> {
    let front = ["", "src/", "out/lib/", "gen/include/detail/"];
    let name = |k: usize| format!("{}{k:03x}{}", front[k % 4], [".o", ".cpp", ""][k % 3]);
    (0..1_024).map(|k| name(k).into_bytes()).collect()
}

fn cards() {
    let names = paths();
    let mut sorted = names.clone();
    sorted.sort();
    let records: Vec<(&[u8], u64)> = sorted.iter().map(|name| (name.as_slice(), 7)).collect();
    let bytes = second::card::write(&records);

    let (ours, theirs) = both(|| card::sound(&bytes), || second::card::read(&bytes).is_ok());
    row("card of 1,024: sound", ours, theirs);

    let list = listing(&names);
    let theirs_listed = || {
        let listed = second::card::read(&bytes).expect("a sound card");
        let is_listed =
            |name: &&[u8]| listed.binary_search_by(|(listed, _)| (*listed).cmp(name)).is_ok();
        list.split(|&b| b == b'\n').filter(is_listed).count()
    };
    assert_eq!(card::listed(&bytes, &list), theirs_listed());
    let (ours, theirs) = both(|| card::listed(&bytes, &list), theirs_listed);
    row("card of 1,024: sound, then 1,024 lookups", ours, theirs);
}
