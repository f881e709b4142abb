//! Header lists for the manifests of an ask: texts as a compiler writes them and others, lists at the
//! edge of a limit, texts and bundles that are damaged.

use super::damage;
use super::edges::{long, numbered, UNITS, UNITS_TOGETHER};
use super::split::{self, named, Files};
use crate::rng::Rng;
use crate::{bundle, limits, manifest, text};

/// Names that a list may have beside those of the manifest.
const NAMES: &[&str] = &[
    "h0", "h1", "h2", "x/y.h", "left hand.h", "a#b", "\\#", "$", "c:d", "e\\f", "g\\", "\\ ", "\t",
    "é", "~", "i\r",
];

/// What gets into a list by mistake.
const SCRAPS: &[&str] = &[
    "\\", " ", "\n", "$", "$$", "#", ":", "\\\n", "\\ ", "\\#", "\\:", "\\\\", "\t", "\r", "\0",
    "h0", " h1 ", "\nh2:\n", "\n\n",
];

/// A rule without a command text whose steps have depfiles.
const RULE: &str = "rule r\n command=\n depfile=$out.d\n";
/// The bytes of the values in [`RULE`].
const RULE_TOGETHER: usize = 6;

/// The lists of a bundle's manifests by path: mostly one for each step that has a depfile.
pub fn lists(rng: &mut Rng, bundle: &[u8]) -> Files {
    let mut lists = Files::new();
    if rng.chance(5) {
        lists.push(named(rng.pick(&["a", "o0.d", "x.d"]), rng.pick(&["", "a: b\n", "$"]).into()));
    }
    let Ok(manifest) = manifest::read(bundle) else { return lists };
    let missing = [0, 0, 10, 50][rng.below(4)];
    for (number, step) in manifest.graph.steps.iter().enumerate().filter(|(_, step)| !step.phony) {
        let path = text::depfile(&manifest, number).unwrap_or_default();
        let is_new = lists.iter().all(|(other, _)| *other != path);
        let fits = (1..=limits::PATH).contains(&path.len()) && lists.len() < limits::HEADERS;
        if fits && is_new && !rng.chance(missing) {
            let target = manifest.files.name(step.outputs[0]);
            let inputs: Vec<&[u8]> = (0..rng.below(5))
                .map(|_| match rng.below(manifest.graph.files + NAMES.len()) {
                    file if file < manifest.graph.files => manifest.files.name(file as u32),
                    other => NAMES[other - manifest.graph.files].as_bytes(),
                })
                .collect();
            lists.push((path, text_of(rng, target, &inputs)));
        }
    }
    lists
}

/// A text that lists these inputs, mostly.
fn text_of(rng: &mut Rng, target: &[u8], inputs: &[&[u8]]) -> Vec<u8> {
    let other = rng.pick(NAMES).as_bytes();
    let mut text = written(rng, target, inputs);
    match rng.below(80) {
        0 => text.clear(),
        1 => text = b" \n\\\n".to_vec(),
        2 => text.extend_from_slice(b"\nh0:\n"),
        3 => text = written(rng, other, inputs),
        4 => text.retain(|&byte| byte != b':'),
        5..=9 => damage::edit_by(rng, &mut text, SCRAPS),
        _ => {}
    }
    text
}

/// A sound text, if the target has a spelling.
pub fn written(rng: &mut Rng, target: &[u8], inputs: &[&[u8]]) -> Vec<u8> {
    let mut text = Vec::new();
    if rng.chance(10) {
        text.extend_from_slice(rng.pick(&["\n", "  \n", "\\\n", " \\\n \n"]).as_bytes());
    }
    spell(rng, target, &mut text);
    if rng.chance(10) {
        gap(rng, &mut text);
        text.extend_from_slice(rng.pick(&["o1", "b\\ c", "$$"]).as_bytes());
    }
    text.extend_from_slice(rng.pick(&[":", ":", " :", ":  "]).as_bytes());
    for input in inputs {
        gap(rng, &mut text);
        spell(rng, input, &mut text);
    }
    if text.ends_with(b"\\") {
        text.extend_from_slice(b"\\\n");
    }
    text.extend_from_slice(rng.pick(&["\n", "\n", "", "\n\n", " \n", " \\\n", "\n \n"]).as_bytes());
    text
}

/// Spells a name; one that holds a newline has no spelling.
fn spell(rng: &mut Rng, name: &[u8], text: &mut Vec<u8>) {
    for &byte in name {
        match byte {
            b' ' => text.extend_from_slice(b"\\ "),
            b'$' => text.extend_from_slice(b"$$"),
            b'#' if text.ends_with(b"\\") || rng.chance(50) => text.extend_from_slice(b"\\#"),
            _ => text.push(byte),
        }
    }
}

/// What stands between two names; a backslash that ends the first is kept.
fn gap(rng: &mut Rng, text: &mut Vec<u8>) {
    let gap = rng.pick(&[" ", " ", " ", "  ", " \\\n ", "\\\n", " \\\n\\\n  "]);
    let gap = if text.ends_with(b"\\") { "\\\n" } else { gap };
    text.extend_from_slice(gap.as_bytes());
}

/// The bundle of the lists; a few are damaged.
pub fn write(rng: &mut Rng, mut lists: Files) -> Vec<u8> {
    if rng.chance(1) {
        let other = || named("h.d", String::new());
        match rng.below(3) {
            0 => lists.push((Vec::new(), Vec::new())),
            1 => lists.extend([other(), other()]),
            _ => lists.push((vec![b'n'; limits::PATH + rng.below(2)], Vec::new())),
        }
    }
    let lists: Vec<_> = lists.iter().map(|(name, text)| (&name[..], &text[..])).collect();
    let mut bundle = bundle::write(&lists);
    if rng.chance(1) {
        split::damage(rng, &mut bundle);
    }
    bundle
}

/// A manifest and its lists at the edge of a limit, on either side of it, of few bytes.
pub fn small_edge(rng: &mut Rng) -> (Vec<u8>, Files) {
    let over = rng.below(2);
    match rng.below(10) {
        0 | 1 => long_input(rng, limits::PATH + over),
        2 => long_path(rng, limits::PATH + over),
        3 => long_path(rng, limits::TEXT + over),
        4 => leads_back(rng),
        5 => same_path(rng),
        6 | 7 => hidden_maker(rng),
        _ => together(rng, limits::TOGETHER + over),
    }
}

/// The same of any size.
pub fn edge(rng: &mut Rng) -> (Vec<u8>, Files) {
    let over = rng.below(2);
    match rng.below(6) {
        0 => records(rng, limits::HEADERS + over),
        1 => files(rng, limits::FILES + over),
        2 => mentions(rng, limits::MENTIONS + over),
        _ => small_edge(rng),
    }
}

fn manifest(text: &str) -> Vec<u8> {
    format!("{RULE}{text}").into_bytes()
}

/// A listed name of so many bytes, among others.
fn long_input(rng: &mut Rng, length: usize) -> (Vec<u8>, Files) {
    let before = rng.pick(&["", "h ", "\\\n"]);
    let after = rng.pick(&["", " h", "\n", " $"]);
    let spelt = rng.pick(&["h", "$$", "\\ ", "\\#"]).repeat(length);
    let text = format!("o:{before}{spelt}{after}");
    let spelt = if text.len() > super::SMALL { "h".repeat(length) } else { spelt };
    (manifest("build o:r\n"), vec![named("o.d", format!("o:{before}{spelt}{after}"))])
}

/// A depfile with a name of so many bytes, which is there if it may be.
fn long_path(rng: &mut Rng, length: usize) -> (Vec<u8>, Files) {
    let (times, rest) = (length / 2_000, length % 2_000);
    let units = format!("{UNITS}c={}\n", long(2_000));
    let depfile = long(rest) + &"$c".repeat(times);
    let text = format!("{units}rule r\n command=\n depfile={depfile}\nbuild o:r\n");
    let mut lists = Files::new();
    if length <= limits::PATH && rng.chance(50) {
        lists.push(named(&"x".repeat(length), "o: h\n".to_string()));
    }
    (text.into_bytes(), lists)
}

/// A depfile's name that may lead back to itself, with a malformed list of another step.
fn leads_back(rng: &mut Rng) -> (Vec<u8>, Files) {
    let depfile = rng.pick(&["$command", "$depfile", "$description", "${out}.d", "$in.d"]);
    let command = rng.pick(&["$depfile", "x", "$description"]);
    let description = rng.pick(&["", " description=$command\n", " description=d\n"]);
    let rule = format!("rule b\n command={command}\n depfile={depfile}\n{description}");
    let (one, other) = if rng.chance(50) { ("b", "r") } else { ("r", "b") };
    let text = format!("{RULE}{rule}build o:{one} i\nbuild p:{other} i\n");
    let lists = vec![named("o.d", rng.pick(&["o:\n", "$"]).into()), named("p.d", "p:".into())];
    (text.into_bytes(), lists)
}

/// Two steps with one depfile, which is of the first of them, of the second or of neither.
fn same_path(rng: &mut Rng) -> (Vec<u8>, Files) {
    let text = format!("depfile={}\n", rng.pick(&["d", "$out", "left hand"]));
    let rule = "rule r\n command=\nbuild o:r\nbuild p:r\n";
    let list = rng.pick(&["o: p\n", "p: o\n", "o p: h\n", "p o:\n", ":\n"]);
    let path = rng.pick(&["d", "d", "left hand"]);
    ((text + rule).into_bytes(), vec![named(path, list.to_string())])
}

/// Steps that are needed by a list alone, and by that of one of them.
fn hidden_maker(rng: &mut Rng) -> (Vec<u8>, Files) {
    let rule = rng.pick(&["phony", "r", "r"]);
    let input = rng.pick(&[" g l m n q s t", " g l m n|| q s", "|| g", ""]);
    let text = format!("build o:r\nbuild h:{rule}{input}\nbuild j:phony k\ndefault o\n");
    let listed = rng.pick(&["h", "h", "h g", "h o", "h j", "g k"]);
    let lists = vec![named("o.d", format!("o: {listed}\n")), named("h.d", "h: g j k".into())];
    (manifest(&text), lists)
}

/// Values, paths and listed names of so many bytes together; the last are those of a list.
fn together(rng: &mut Rng, total: usize) -> (Vec<u8>, Files) {
    let (first, last) = (rng.below(20), rng.between(1, 60));
    let left = total - UNITS_TOGETHER - RULE_TOGETHER - 2 - first - last;
    let lines = "c=$c\n".repeat(left / limits::VALUE - 1);
    let values = format!("{UNITS}c={}\n{lines}d={}\n", long(limits::VALUE), long(left % 2_048));
    let text = format!("{values}{RULE}build o:r\nbuild p:r\n");
    let names = |length: usize| " h".repeat(length);
    let lists = vec![
        named("p.d", format!("p:{}", names(last))),
        named("o.d", format!("o:{}", names(first))),
    ];
    (text.into_bytes(), lists)
}

/// So many records, of which few are named by a step.
fn records(rng: &mut Rng, count: usize) -> (Vec<u8>, Files) {
    let mut lists: Files =
        (1..count).map(|number| named(&format!("{number}.d"), "$".into())).collect();
    lists.insert(rng.below(count), named("o.d", "o: h\n".to_string()));
    (manifest("build o:r\n"), lists)
}

/// So many files, the last of them named by lists only.
fn files(rng: &mut Rng, count: usize) -> (Vec<u8>, Files) {
    let (first, last) = (rng.below(10), rng.between(1, 10));
    let text = format!("build o:r\nbuild p:r{}\n", numbered(" #", count - 2 - first - last));
    let known = rng.pick(&["", " o 1 1", " p"]);
    let lists = vec![
        named("o.d", format!("o:{}{known}", numbered(" f#", first))),
        named("p.d", format!("p:{known}{}{known}", numbered(" g#", last))),
    ];
    (manifest(&text), lists)
}

/// So many mentions, the last of them of lists, which repeat names.
fn mentions(rng: &mut Rng, count: usize) -> (Vec<u8>, Files) {
    let (first, last) = (rng.below(300), rng.between(1, 300));
    let of_default = count - 2 - first - last;
    let text = format!("build o:r\nbuild p:r\ndefault{}\n", " o".repeat(of_default));
    let name = rng.pick(&[" h", " i", " o"]);
    let lists = vec![
        named("o.d", format!("o:{}", " h".repeat(first))),
        named("p.d", format!("p:{}", name.repeat(last))),
    ];
    (manifest(&text), lists)
}
