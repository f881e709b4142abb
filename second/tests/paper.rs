//! The cases that document 01 itself gives: the bench example, M1 to M10, and those the program
//! is to run; with the exact bytes the program writes.

use second::{card, program, Answer, Ask, Lent, Wanted};

const BENCH: &[u8] = b"cflags = -O1
rule cc
  command = cc $cflags -c $in -o $out
build b.o: cc b.c
build a.o: cc a.c | t.h
  cflags = -O2
build axis: phony a.o b.o
default axis
";

fn card(records: &[(&str, u64)]) -> Vec<u8> {
    let mut records: Vec<_> = records.iter().map(|&(name, time)| (name.as_bytes(), time)).collect();
    records.sort();
    card::write(&records)
}

fn lent(manifest: &[u8], records: &[(&str, u64)], targets: &str) -> Lent {
    let (card, targets) = (card(records), targets.into());
    Lent { card, targets, ..Lent::alone(manifest) }
}

fn plan(manifest: &[u8], records: &[(&str, u64)], targets: &str) -> Answer {
    Ask::plan(lent(manifest, records, targets)).answer()
}

fn list(manifest: &[u8], records: &[(&str, u64)], targets: &str) -> Vec<u32> {
    match plan(manifest, records, targets) {
        Answer::List(list) => list,
        other => panic!("{other:?}"),
    }
}

fn written(manifest: &[u8], records: &[(&str, u64)], targets: &str) -> Vec<u8> {
    program::output(&lent(manifest, records, targets))
}

fn command(manifest: &[u8], step: usize) -> Vec<u8> {
    match Ask::text(manifest, step, Wanted::Command).answer() {
        Answer::Text(text) => text,
        other => panic!("{other:?}"),
    }
}

fn refused(manifest: &[u8]) -> Option<(u8, usize)> {
    let refusal = plan(manifest, &[], "").refusal()?;
    Some((refusal.number, refusal.place.value()))
}

#[test]
fn bench_example() {
    let times = [("a.c", 5), ("b.c", 5), ("t.h", 9), ("a.o", 7)];
    let lines = b"[1/2] cc -O1 -c b.c -o b.o\n[2/2] cc -O2 -c a.c -o a.o\n";
    assert_eq!(written(BENCH, &times, ""), lines);
}

#[test]
fn m1_m2_ages() {
    let m1 = [("a.c", 5), ("b.c", 5), ("t.h", 9), ("a.o", 7), ("b.o", 7)];
    assert_eq!(list(BENCH, &m1, ""), [1]);
    let m2 = [("a.c", 5), ("b.c", 5), ("t.h", 9), ("a.o", 9), ("b.o", 7)];
    assert_eq!(list(BENCH, &m2, ""), []);
    assert_eq!(written(BENCH, &m2, ""), b"no work\n");
}

#[test]
fn m3_m4_m5_m6_texts() {
    let rule =
        |command: &str| format!("rule r\n  command = {command}\nbuild o: r i\n").into_bytes();
    assert_eq!(command(&rule("x$\n   y"), 0), b"xy");
    assert_eq!(command(&rule("$out.d"), 0), b"o.d");
    let kept = [b"a = x # y\n".to_vec(), rule("$a")].concat();
    assert_eq!(command(&kept, 0), b"x # y");
    let late = [b"v = 1\n".to_vec(), rule("x $v"), b"v = 2\n".to_vec()].concat();
    assert_eq!(command(&late, 0), b"x 2");
}

#[test]
fn m7_m8_circles() {
    let own = b"build a: phony a\n";
    assert_eq!(plan(own, &[], "a\n"), Answer::Circle(vec![0]));
    assert_eq!(written(own, &[], "a\n"), b"refused 14 at 1\ncircle 0\n");
    let apart = b"build a: phony b\nbuild b: phony a\nbuild c: phony\n";
    assert_eq!(list(apart, &[], "c\n"), []);
    assert_eq!(plan(apart, &[], "b\n"), Answer::Circle(vec![1, 0]));
}

#[test]
fn m9_m10_order_only_and_card() {
    let manifest = b"rule r\n  command = r\nbuild o: r || i\n";
    assert_eq!(list(manifest, &[("i", 9), ("o", 5)], ""), []);
    assert_eq!(card(&[("a", 5)]).len(), 33);
    assert!(card::read(&card(&[("a", 5)])).is_ok());
}

#[test]
fn versions() {
    assert_eq!(refused(b"ninja_required_version = 1.5\n"), None);
    assert_eq!(refused(b"ninja_required_version = 1.5.1\n"), Some((10, 0)));
    for sound in ["0", "1.5.0", "01.0005.00", "1.4.65535", "0.65535.65535", "$\n1"] {
        let line = format!("ninja_required_version = {sound}\n");
        assert_eq!(refused(line.as_bytes()), None, "{sound}");
    }
    for bad in ["", "1.", ".1", "1..5", "1.5.0.0", "1.5 ", "a", "0.65536", "2", "1.6", "$$"] {
        let line = format!("x = 1\nninja_required_version = {bad}\n");
        assert_eq!(refused(line.as_bytes()), Some((10, 6)), "{bad}");
    }
}

#[test]
fn limits_of_paths_and_steps() {
    let path = |length: usize| format!("build {}: phony\n", "p".repeat(length));
    assert_eq!(refused(path(255).as_bytes()), None);
    assert_eq!(refused(path(256).as_bytes()), Some((9, 0)));
    let steps =
        |count: usize| -> String { (0..count).map(|n| format!("build {n}: phony\n")).collect() };
    assert_eq!(refused(steps(512).as_bytes()), None);
    assert_eq!(refused(steps(513).as_bytes()), Some((9, steps(512).len())));
}

#[test]
fn readings_that_look_right() {
    // Stopping an order chain at a fresh step: 2 is upstream of 0 only through 1, which is fresh.
    let chain = b"rule r\n  command = r\nbuild z: r b\nbuild b: r || a\nbuild a: r i\n";
    let times = [("i", 9), ("b", 5)];
    assert_eq!(list(chain, &times, ""), [2, 0]);
    // Judging age by the first output only.
    let two = b"rule r\n  command = r\nbuild a b: r i\n";
    assert_eq!(list(two, &[("i", 5), ("a", 9), ("b", 4)], ""), [0]);
    // Expanding a path before cutting it.
    let spaced = b"s = foo bar\nrule r\n  command = $in.\nbuild o: r $s/baz other$ file\n";
    assert_eq!(command(spaced, 0), b"'foo bar/baz' 'other file'.");
}

/// The manual's own examples within this edition, with what it says of them.
#[test]
fn the_manuals_examples() {
    let shadowing = b"cflags = -Wall -Werror
rule cc
  command = gcc $cflags -c $in -o $out

# If left unspecified, builds get the outer $cflags.
build foo.o: cc foo.c

# But you can shadow variables like cflags for a particular build.
build special.o: cc special.c
  cflags = -Wall

# The variable was only shadowed for the scope of special.o;
# Subsequent build lines get the outer (original) cflags.
build bar.o: cc bar.c
";
    let sources = [("foo.c", 1), ("special.c", 1), ("bar.c", 1)];
    let lines = b"[1/3] gcc -Wall -Werror -c foo.c -o foo.o
[2/3] gcc -Wall -c special.c -o special.o
[3/3] gcc -Wall -Werror -c bar.c -o bar.o
";
    assert_eq!(written(shadowing, &sources, ""), lines);

    let demo = b"rule demo
  command = echo \"this is a demo of $foo\"
build out: demo
  foo = bar
";
    assert_eq!(written(demo, &[], ""), b"[1/1] echo \"this is a demo of bar\"\n");

    let joined = b"two_words_with_one_space = foo $
    bar
one_word_with_no_space = foo$
    bar
rule r
  command = [$two_words_with_one_space][$one_word_with_no_space]
build out: r
";
    assert_eq!(command(joined, 0), b"[foo bar][foobar]");

    let spaced = b"spaced = foo bar
rule r
  command = $out
build $spaced/baz other$ file: r
";
    assert_eq!(command(spaced, 0), b"'foo bar/baz' 'other file'");
    assert_eq!(list(spaced, &[("foo bar/baz", 1)], "other file\n"), [0]);

    let phony = b"build foo: phony some/file/in/a/faraway/subdir/foo\n";
    let faraway = [("some/file/in/a/faraway/subdir/foo", 1)];
    assert_eq!(written(phony, &faraway, "foo\n"), b"no work\n");

    let defaults = b"rule r
  command = r $out
build foo: r
build bar: r
build baz: r
build other: r
default foo bar
default baz
";
    assert_eq!(list(defaults, &[], ""), [0, 1, 2]);
    assert_eq!(refused(b"ninja_required_version = 1.1\n"), None);
}
