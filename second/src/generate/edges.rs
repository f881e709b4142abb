//! Manifests at the edge of a limit, on either side of it.

use crate::limits;
use crate::rng::Rng;
use crate::text::quoted;

/// Variables `a` and `b` of 16 and 128 bytes, by which [`long`] writes long values shortly.
pub(super) const UNITS: &str = "a=xxxxxxxxxxxxxxxx\nb=$a$a$a$a$a$a$a$a\n";
/// The bytes of the values in [`UNITS`].
pub(super) const UNITS_TOGETHER: usize = 16 + 128;

/// Raw bytes that expand to that many after [`UNITS`].
pub(super) fn long(length: usize) -> String {
    "x".repeat(length % 16) + &"$b".repeat(length / 128) + &"$a".repeat(length % 128 / 16)
}

/// One of the small manifests, of 300 bytes at most.
pub fn small(rng: &mut Rng) -> Vec<u8> {
    let over = rng.below(2);
    let manifest = match rng.below(10) {
        0 => format!("{}=1\n", "n".repeat(limits::NAME + over)),
        1 => {
            let name = "n".repeat(limits::NAME + over);
            format!("rule {name}\n command=\nbuild o:{name}\n {name}=\n")
        }
        2 => format!("build o:phony\n {}=1\n", "n".repeat(limits::NAME + over)),
        3 => format!("{UNITS}build o:phony {}\n", long(limits::PATH + over)),
        4 => long_outputs(rng),
        5 => long_value(rng),
        6 => together(rng, limits::TOGETHER + over),
        _ => long_text(rng, limits::TEXT + over),
    };
    manifest.into_bytes()
}

/// One of the manifests of any length.
pub fn full(rng: &mut Rng) -> Vec<u8> {
    let over = rng.below(2);
    let manifest = match rng.below(15) {
        0 => steps(rng),
        1 => format!("build o:phony{}\n", numbered(" #", limits::FILES - 1 + over)),
        2 => rules(rng),
        3 => bindings(rng, limits::BINDINGS + over),
        4 => mentions(rng, limits::MENTIONS + over),
        5 => format!("build o:phony\n#{}\n", " ".repeat(limits::MANIFEST - 16 + over)),
        6 => raw_value(limits::VALUE + over),
        _ => return small(rng),
    };
    manifest.into_bytes()
}

/// The pattern so many times, each with its number for `#`.
pub(super) fn numbered(pattern: &str, count: usize) -> String {
    (0..count).map(|number| pattern.replace('#', &number.to_string())).collect()
}

/// Outputs over the limit of paths, perhaps equal ones, with what refuses their line beside that.
fn long_outputs(rng: &mut Rng) -> String {
    let length = rng.between(limits::PATH, 600);
    let (one, other) = (long(length), long(length + rng.below(2)));
    let other = if rng.chance(50) { other } else { other.replace("$a", "${a}") };
    let rule = rng.pick(&["phony", "phony", "none"]);
    let input = rng.pick(&["", " i", " $u"]);
    format!("{UNITS}build {one} {other}:{rule}{input}\n")
}

fn long_value(rng: &mut Rng) -> String {
    let value = long(limits::VALUE + rng.below(2));
    match rng.below(3) {
        0 => format!("{UNITS}v={value}\n"),
        1 => format!("{UNITS}ninja_required_version={value}\n"),
        _ => format!("{UNITS}build o:phony\n v={value}\n"),
    }
}

/// Values, and in the last line perhaps paths, of so many bytes together.
fn together(rng: &mut Rng, total: usize) -> String {
    let (last, bytes) = match rng.below(4) {
        0 => (format!("build o:phony {}\n", long(99)), 100),
        1 => ("build o:phony\ndefault o\n".to_string(), 2),
        2 => ("rule r\n command= x$\n y \n".to_string(), 6),
        _ => (String::new(), 0),
    };
    let left = total - UNITS_TOGETHER - bytes;
    let lines = "c=$c\n".repeat(left / limits::VALUE - 1);
    let rest = long(left % limits::VALUE);
    format!("{UNITS}c={}\n{lines}d={rest}\n{last}", long(limits::VALUE))
}

/// A step with a text of so many bytes, which now and then leads back to itself. Its input, if it has
/// one, may be a name that is longer in quotes.
fn long_text(rng: &mut Rng, length: usize) -> String {
    let input = rng.pick(&["", "", "i", "x'y", "'", "a+b", "a~", "''''"]);
    let rest = length - quoted(input.as_bytes()).len();
    let (times, rest) = (rest / 2_000, rest % 2_000);
    let (first, last) = if rng.chance(50) { ("$in", "") } else { ("", "$in") };
    let command = format!("{first}{}$description{last}", "$c".repeat(times));
    let description = long(rest) + rng.pick(&["", "", "", "$command"]);
    let rule = format!("rule r\n command={command}\n description={description}\n");
    format!("{UNITS}c={}\n{rule}build o:r {input}\n", long(2_000))
}

/// Steps with texts about as long as a text may be, half as long, of a few bytes, and now and then
/// one that leads back to itself.
pub fn long_texts(rng: &mut Rng) -> Vec<u8> {
    let back = rng.pick(&["", "", "$command"]);
    let mut rules = String::new();
    for (rule, command) in [("r", "$c$c$c$c$d"), ("s", "$c$c$d"), ("t", &format!("$d{back}"))] {
        rules += &format!("rule {rule}\n command={command}\n");
    }
    let mut steps = String::new();
    for step in 0..rng.between(2, 6) {
        let (rule, length) = match rng.below(5) {
            0 => ("r", limits::TEXT - 8_000 + rng.below(3) - 1),
            1 | 2 => ("s", limits::TEXT / 2 - 4_000 + rng.below(3) - 1),
            _ => ("t", rng.below(20)),
        };
        steps += &format!("build {step}:{rule}\n d={}\n", long(length));
    }
    format!("{UNITS}c={}\n{rules}{steps}", long(2_000)).into_bytes()
}

/// A rule's value of so many bytes as written, of which a join drops all but two.
fn raw_value(length: usize) -> String {
    format!("rule r\n command=x$\n{}y\nbuild o:r\n", " ".repeat(length - 4))
}

/// As many steps as may be, and perhaps a line more, which has faults that come before the limit.
fn steps(rng: &mut Rng) -> String {
    let more =
        ["", "x=\n", "build x:phony\n", "build 0:phony\n", "build x:none\n", "build $u:phony\n"];
    numbered("build # :phony\n", limits::STEPS) + rng.pick(&more)
}

/// As many rules as may be, and perhaps one more.
fn rules(rng: &mut Rng) -> String {
    let more = ["", "rule x\n command=\n", "rule 5\n", "rule phony\n", "rule pool\n", "rule x y\n"];
    numbered("rule #\n command=\n", limits::RULES) + rng.pick(&more)
}

/// So many binding lines, of the file and of both kinds of block.
fn bindings(rng: &mut Rng, count: usize) -> String {
    let of_file = rng.below(count - 1);
    let of_block = count - 2 - of_file;
    let file = "a=\n".repeat(of_file);
    let block = format!("build o:phony\n{}", " a=\n".repeat(of_block));
    let rule = "rule r\n command=\n generator=\n";
    match rng.below(3) {
        0 => file + &block + rule,
        1 => block + rule + &file,
        _ => file + rule + &block,
    }
}

/// So many path mentions, of build and default lines.
fn mentions(rng: &mut Rng, count: usize) -> String {
    let of_default = rng.between(1, count - 2);
    let of_build = count - 1 - of_default;
    format!("build o:phony{}\ndefault{}\n", " i".repeat(of_build), " o".repeat(of_default))
}
