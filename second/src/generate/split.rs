//! Manifests of several files: one cut into files that it opens, files at the edge of what may be
//! opened or lent, and bundles that are damaged.

use crate::rng::Rng;
use crate::{bundle, limits};

/// Names and texts of a bundle, the top file first.
pub type Files = Vec<(Vec<u8>, Vec<u8>)>;

/// The names of files beside the top one, in no order.
pub const NAMES: &[&str] =
    &["b", "a", "sub.ninja", "sub/b", "=", "x#", "left hand", "$", "build", "zz"];

/// One text by itself.
pub fn alone(text: Vec<u8>) -> Files {
    vec![(bundle::ALONE.to_vec(), text)]
}

/// The length of all texts together.
pub fn length(files: &Files) -> usize {
    files.iter().map(|(_, text)| text.len()).sum()
}

/// Moves runs of lines into files of their own, which are opened where the lines stood.
pub fn cut(rng: &mut Rng, files: &mut Files) {
    for _ in 0..rng.between(1, 4) {
        let left = NAMES.iter().filter(|name| bundle_name(files, name.as_bytes()).is_none());
        let Some(name) = left.copied().nth(rng.below(3)) else { return };
        let from = rng.below(files.len());
        let text = &files[from].1;
        let starts = line_starts(text, !rng.chance(8));
        if starts.is_empty() {
            continue;
        }
        let (mut start, mut end) = (rng.below(starts.len()), rng.below(starts.len()));
        if end < start {
            std::mem::swap(&mut start, &mut end);
        }
        let (start, end) = (starts[start], starts[end]);
        let keyword = rng.pick(&["include", "include", "subninja"]);
        let line = format!("{keyword} {}\n", path(name)).into_bytes();
        let moved: Vec<u8> = files[from].1.splice(start..end, line).collect();
        let at = rng.between(1, files.len());
        files.insert(at, (name.as_bytes().to_vec(), moved));
    }
}

fn bundle_name(files: &Files, name: &[u8]) -> Option<usize> {
    files.iter().position(|(other, _)| other == name)
}

/// A name as a path is written.
fn path(name: &str) -> String {
    name.replace('$', "$$").replace(' ', "$ ").replace(':', "$:")
}

/// Where lines begin, and the text's end; if wanted only those that no block or join goes on in.
fn line_starts(text: &[u8], sound: bool) -> Vec<usize> {
    let ends = (1..=text.len()).filter(|&at| text[at - 1] == b'\n');
    let goes_on = |at: usize| text.get(at) == Some(&b' ') || text[..at].ends_with(b"$\n");
    std::iter::once(0).chain(ends).filter(|&at| !(sound && goes_on(at))).collect()
}

/// Files at the edge of a limit, on either side of it, of few bytes.
pub fn edge(rng: &mut Rng) -> Files {
    let over = rng.below(2);
    match rng.below(8) {
        0 => deep(rng, limits::OPEN + over),
        1 => itself(rng),
        2 | 3 => many(rng, limits::OPENED + over),
        4 => long_name(rng, limits::PATH + over),
        5 => records(rng, limits::NAMES + over),
        6 => unopened(rng),
        _ => missing(rng),
    }
}

fn keyword(rng: &mut Rng) -> &'static str {
    rng.pick(&["include", "subninja"])
}

pub(super) fn named(name: &str, text: String) -> (Vec<u8>, Vec<u8>) {
    (name.as_bytes().to_vec(), text.into_bytes())
}

/// Each file opens the next, so many in all; what stands behind the opening is read on the way back.
fn deep(rng: &mut Rng, count: usize) -> Files {
    let file = |rng: &mut Rng, number: usize| {
        let before = rng.pick(&["", "v=$v.\n", "#\n"]);
        let opening = match number + 1 {
            next if next < count => format!("{} f{next}\n", keyword(rng)),
            _ => String::new(),
        };
        let step = rng.pick(&["", "build o#:phony\n", "rule r#\n command=$v\nbuild o#:r#\n"]);
        let after = rng.pick(&["", "v=#\n"]);
        let text = format!("{before}{opening}{step}{after}").replace('#', &number.to_string());
        named(&format!("f{number}"), text)
    };
    (0..count).map(|number| file(rng, number)).collect()
}

/// A file that opens itself, or one that opens the file that opened it.
fn itself(rng: &mut Rng) -> Files {
    if rng.chance(50) {
        return vec![named("t", format!("v=$v.\n{} t\n", keyword(rng)))];
    }
    let (down, back) = (keyword(rng), keyword(rng));
    vec![named("t", format!("{down} a\n")), named("a", format!("#\n{back} t\n"))]
}

/// So many files opened in all, by few lines: eight times one that opens another seven times.
fn many(rng: &mut Rng, opened: usize) -> Files {
    let (outer, inner) = (keyword(rng), keyword(rng));
    let (rounds, rest) = ((opened - 1) / 8, (opened - 1) % 8);
    let step = rng.pick(&["", "build o:phony\n", "v=$v.\n"]);
    let top = format!("{outer} a\n").repeat(rounds) + &format!("{inner} b\n").repeat(rest) + step;
    let bound = rng.pick(&["", "v=$v.\n", "build $v:phony\n"]);
    let a = format!("{inner} b\n").repeat(7) + bound;
    vec![named("t", top), named("b", String::new()), named("a", a)]
}

/// A file with a name of so many bytes, which is spelt by variables and opened, or is not there.
fn long_name(rng: &mut Rng, length: usize) -> Files {
    let top = format!(
        "a=xxxxxxxxxxxxxxxxx\n{} {}{}\n",
        keyword(rng),
        "$a".repeat(length / 17),
        "x".repeat(length % 17)
    );
    let mut files = vec![named("t", top)];
    if rng.chance(50) {
        files.push(named(&"x".repeat(length), "build o:phony\n".to_string()));
    }
    files
}

/// So many records, of which one or none is opened.
fn records(rng: &mut Rng, count: usize) -> Files {
    let opened = rng.below(count + 2);
    let mut files = vec![named("t", format!("{} {opened}\n", keyword(rng)))];
    files.extend((1..count).map(|number| named(&number.to_string(), String::new())));
    files
}

/// A file that no line opens, with lines that no form fits or bytes that are not allowed.
fn unopened(rng: &mut Rng) -> Files {
    let top = rng.pick(&["build o:phony\n", "x\n", "\t", ""]);
    let other = rng.pick(&["x\n", "rule r\n", "x", "\r\n", "", "x\n\0"]);
    let mut files = vec![named("t", top.to_string()), named("a", other.to_string())];
    if rng.chance(50) {
        files.push(named("b", "\t".to_string()));
    }
    files
}

/// An opening of what is not in the bundle, with other faults of its line and the next.
fn missing(rng: &mut Rng) -> Files {
    let before = rng.pick(&["", "v=a\n", "rule r\n", "build o:phony\n"]);
    let path =
        rng.pick(&["c", "$v", "$v.", "a/", "./a", "A", "$u", "a a", "a:", "a|", "a $%", "$%"]);
    let after = rng.pick(&["", "x\n", " a=\n"]);
    let top = format!("{before}{} {path}\n{after}", keyword(rng));
    vec![named("t", top), named("a", "x=1\n".to_string())]
}

/// Texts whose bytes together are as many as may be, or one more.
pub fn full(rng: &mut Rng) -> Files {
    let length = limits::MANIFEST + rng.below(2);
    let first = rng.below(length - 100);
    let text = |length: usize| format!("#{}\n", " ".repeat(length - 2));
    let top = format!("build o:phony\n{}", text(first.max(20)));
    let rest = length - top.len();
    vec![named("t", top), named("a", text(rest))]
}

/// The bundle of the files; one in 25 is damaged.
pub fn write(rng: &mut Rng, files: &Files) -> Vec<u8> {
    let mut files = files.clone();
    if rng.chance(2) {
        damage_files(rng, &mut files);
    }
    let files: Vec<_> = files.iter().map(|(name, text)| (&name[..], &text[..])).collect();
    let mut bundle = bundle::write(&files);
    if rng.chance(2) {
        damage(rng, &mut bundle);
    }
    bundle
}

fn damage_files(rng: &mut Rng, files: &mut Files) {
    let at = rng.below(files.len());
    match rng.below(5) {
        0 => files.clear(),
        1 => files[at].0.clear(),
        2 => files[at].0 = vec![b'n'; limits::PATH + rng.below(2)],
        3 => files.push(files[at].clone()),
        _ => {
            files.extend((0..limits::NAMES).map(|number| named(&number.to_string(), String::new())))
        }
    }
}

/// Damages the bytes of a bundle.
pub(super) fn damage(rng: &mut Rng, bundle: &mut Vec<u8>) {
    let at = rng.below(bundle.len());
    match rng.below(6) {
        0 => bundle.truncate(at),
        1 => bundle.push(b'\n'),
        2 => bundle.clear(),
        3 => bundle[at] = bundle[at].wrapping_add(1),
        _ => {
            let field = rng.below(bundle.len() / 4).min(4 + 8 * rng.between(1, 4)) * 4;
            let by = rng.pick(&[&1, &255, &16]);
            bundle[field] = bundle[field].wrapping_add(*by);
        }
    }
}
