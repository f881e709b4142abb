//! The proved reader of manifests against the second planner's: on the large shapes, and on
//! manifests that are made to take long. The buffers are made once and nothing is cleared before a
//! call. A word behind the command runs only what has it in its name.

use compare::manifest::Buffers;
use compare::measure::{rounds, row};
use compare::names::bucket;
use second::{bundle, manifest};
use std::fmt::Write;
use std::time::{Duration, Instant};

/// The most bytes of a manifest.
const MOST: usize = second::limits::MANIFEST;

fn main() {
    let mut worst = (Duration::ZERO, String::new());
    let mut buffers = Buffers::default();
    let shapes = second::shapes::all(512).map(|shape| (shape.name.to_string(), shape.manifest));
    let hard = hard();
    let word = std::env::args().nth(1).unwrap_or_default();
    for (name, manifest) in shapes.iter().chain(&hard).filter(|(name, _)| name.contains(&word)) {
        assert!(manifest.len() <= MOST, "{name}: {} bytes", manifest.len());
        let bundle = bundle::alone(manifest);
        let began = Instant::now();
        let said = buffers.read(&bundle);
        let count = match began.elapsed().as_millis() {
            0..10 => 201,
            10..1_000 => 3,
            _ => 1,
        };
        let theirs = manifest::read(&bundle).map_or_else(
            |refusal| (usize::from(refusal.number), refusal.place.text(), refusal.place.value()),
            |_| (0, 0, 0),
        );
        assert_eq!((said.number, said.text, said.place), theirs, "{name}");
        let (ours, theirs) =
            rounds(count, || buffers.read(&bundle), || manifest::read(&bundle).is_ok());
        row(&format!("{name} ({})", said.number), ours, theirs);
        if ours.median > worst.0 {
            worst = (ours.median, name.clone());
        }
    }
    println!("longest: {:?}, {}", worst.0, worst.1);
}

/// As many pieces as a manifest has room for, between a front and a back.
fn filled(front: &str, back: &str, mut piece: impl FnMut(usize) -> String) -> Vec<u8> {
    let mut manifest = front.to_string();
    for k in 0.. {
        let next = piece(k);
        if manifest.len() + next.len() + back.len() > MOST {
            break;
        }
        manifest += &next;
    }
    (manifest + back).into_bytes()
}

const DIGITS: &[u8; 64] = b"0123456789abcdefghijklmnopqrstuvwxyzABCDEFGHIJKLMNOPQRSTUVWXYZ_-";

/// A number in digits of which there are 64, the lowest first.
fn short(mut number: usize) -> String {
    let mut shown = String::new();
    loop {
        shown.push(DIGITS[number % 64] as char);
        number /= 64;
        if number == 0 {
            return shown;
        }
    }
}

/// `v` of 2,048 bytes, by way of `w` of 128.
fn long_variable() -> String {
    format!("w={}\nv={}\n", "x".repeat(128), "$w".repeat(16))
}

fn hard() -> Vec<(String, Vec<u8>)> {
    let long = long_variable();
    let many: String = (0..1_000).fold(String::from("vvv=x\n"), |mut lines, k| {
        writeln!(lines, "{}=", short(k)).unwrap();
        lines
    });
    let mut hard: Vec<(&str, Vec<u8>)> = vec![
        (
            "one line of distinct short outputs",
            filled("build", ":phony\n", |k| format!(" {}", short(k))),
        ),
        (
            "one line of distinct long outputs by $v",
            filled(&format!("{long}build"), ":phony\n", |k| format!(" {}$v", short(k))),
        ),
        (
            "outputs by $v that differ at the end",
            filled(&format!("{long}build"), ":phony\n", |k| format!(" ${{v}}{}", short(k))),
        ),
        (
            "one input of $v everywhere",
            filled(&format!("{long}build o:phony "), "\n", |_| "$v".to_string()),
        ),
        ("inputs of $v each", filled(&format!("{long}build o:phony"), "\n", |_| " $v".to_string())),
        (
            "inputs of nothing behind $v",
            filled(&format!("{long}build o:phony"), " $u\n", |_| " $v".to_string()),
        ),
        ("one value of $v everywhere", filled(&format!("{long}x="), "\n", |_| "$v".to_string())),
        (
            "1,001 bindings, looked up by 4,095 inputs",
            filled(&format!("{many}build o:phony"), "\n", |k| {
                if k < 4_095 { " $vvv" } else { " " }.to_string()
            }),
        ),
        (
            "1,001 bindings, looked up everywhere",
            filled(&format!("{many}build o:phony "), "\n", |_| "$vvv".to_string()),
        ),
        (
            "1,001 bindings, an empty one everywhere",
            filled(&format!("{many}build o:phony x"), "\n", |_| "$0".to_string()),
        ),
        ("bindings that double", doubling()),
        ("empty lines", filled("", "", |_| "\n".to_string())),
        ("comments", filled("", "", |_| "#\n".to_string())),
        ("one path of joins", filled("build o:phony ", "x\n", |_| "$\n".to_string())),
        ("bindings of every line", filled("", "", |_| "a=\n".to_string())),
    ];
    let mut many_references = Vec::new();
    let bucket = one_bucket();
    hard.push((
        "1,023 outputs in a bucket, then others",
        bucketed(&bucket, ":phony\n", "build", 1_023),
    ));
    hard.push(("defaults of 1,023 outputs in a bucket", defaults(&bucket)));
    let old = "a=\n".repeat(1_023);
    let mut falling: Vec<String> = (0..13_300).map(short).collect();
    falling.sort_by(|a, b| b.cmp(a));
    hard.push((
        "outputs in falling order",
        filled("build", ":phony\n", |k| {
            falling.get(k).map_or(" ".to_string(), |output| format!(" {output}"))
        }),
    ));
    hard.push((
        "outputs by an old $v that differ at the end",
        filled(&format!("{long}{}build", "a=\n".repeat(1_022)), ":phony\n", |k| {
            format!(" ${{v}}{}", short(k))
        }),
    ));
    for count in [1, 2, 4, 8, 16, 32, 64] {
        let name = format!("outputs of {count} old references");
        let front = "$v".repeat(count - 1);
        many_references.push((
            name,
            filled(&format!("v=x\n{old}build"), ":phony\n", |k| {
                format!(" {front}${{v}}{}", short(k))
            }),
        ));
    }
    hard.into_iter()
        .map(|(name, manifest)| (name.to_string(), manifest))
        .chain(many_references)
        .collect()
}

/// Values that double up to the most bytes, and a path of them all.
fn doubling() -> Vec<u8> {
    let mut front = "a0=xx\n".to_string();
    for k in 1..11 {
        writeln!(front, "a{k}=$a{}$a{}", k - 1, k - 1).unwrap();
    }
    filled(&format!("{front}build o:phony "), "\n", |_| "$a10".to_string())
}

/// Texts of four bytes that are, behind fifty others, all in one bucket.
fn one_bucket() -> Vec<String> {
    let digit = |k: usize| DIGITS[k % 64] as char;
    let texts = (0..40 << 18).map(|k| {
        [digit(k), digit(k >> 6), digit(k >> 12), digit(k >> 18)].iter().collect::<String>()
    });
    texts.filter(|text| bucket(format!("{}{text}", "x".repeat(50)).as_bytes()) == 0).collect()
}

/// A step with so many outputs in one bucket, each of them with a long front, and another step with
/// outputs in it.
fn bucketed(names: &[String], back: &str, next: &str, count: usize) -> Vec<u8> {
    let front = format!("p={}\nbuild", "x".repeat(50));
    let first: String = names[..count].iter().fold(front, |line, name| line + " ${p}" + name);
    filled(&format!("{first}:phony\n{next}"), back, |k| match names.get(count + k) {
        Some(name) => format!(" ${{p}}{name}"),
        None => " ".to_string(),
    })
}

/// The first of the outputs that are in one bucket, as a default many times.
fn defaults(names: &[String]) -> Vec<u8> {
    let front = format!("p={}\nq=${{p}}{}\nbuild", "x".repeat(50), names[0]);
    let first: String = names[..1_023].iter().fold(front, |line, name| line + " ${p}" + name);
    filled(&format!("{first}:phony\ndefault"), "\n", |_| " $q".to_string())
}
