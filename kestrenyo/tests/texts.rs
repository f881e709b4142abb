//! The texts of many steps: what the iterator gives, and lent buffers.

use kestrenyo::lent::{self, Said};
use kestrenyo::{text, texts, Bundle, Refusal, TextPlace, Wanted, STACK, TEXT};

const MANIFEST: &[u8] = b"cflags = -O1
rule cc
  command = cc $cflags -c $in -o $out
  description = CC $out
rule back
  command = $command
build b.o: cc b.c
build a.o: cc a.c | t.h
  cflags = -O2
build axis: phony a.o b.o
build c: back
";

/// Texts of 3 times 2,000 bytes and a number, and of a few bytes, by turns.
fn long() -> String {
    let rules = "rule long\n  command = $v$v$v $out\nrule short\n  command = $out\n";
    let rule = |step: usize| if step.is_multiple_of(2) { "long" } else { "short" };
    let steps: String = (0..512).map(|step| format!("build {step}: {}\n", rule(step))).collect();
    format!("v = {}\n{rules}{steps}", "x".repeat(2_000))
}

/// What the iterator is to give: each step's text, up to a refusal.
fn one_by_one(bundle: &Bundle, steps: &[u32], wanted: Wanted) -> Vec<Result<Vec<u8>, Refusal>> {
    let mut refused = false;
    let single = steps.iter().map(|&step| text(bundle, step as usize, wanted));
    let until = single.take_while(|one| !std::mem::replace(&mut refused, one.is_err()));
    until.collect()
}

fn is_one_by_one(bundle: &Bundle, steps: &[u32]) {
    for wanted in [Wanted::Command, Wanted::Description] {
        let right = one_by_one(bundle, steps, wanted);
        let mut given = texts(bundle, steps, wanted);
        for (place, one) in right.iter().enumerate() {
            let (least, most) = given.size_hint();
            let left = right.len() - place;
            assert!(least <= left && most.is_some_and(|most| most >= left), "{place} {steps:?}");
            assert_eq!(given.next().as_ref(), Some(one), "{place} {steps:?}");
        }
        assert_eq!([given.next(), given.next()], [None, None]);
        assert_eq!(given.size_hint(), (0, Some(0)));
    }
}

#[test]
fn texts_are_those_of_each_step() {
    for steps in [&[][..], &[0], &[1], &[1, 0], &[0, 1, 0, 0, 1]] {
        is_one_by_one(&Bundle::alone(MANIFEST), steps);
    }
    let bundle = Bundle::alone(MANIFEST);
    let commands: Result<Vec<_>, _> = texts(&bundle, &[1, 0], Wanted::Command).collect();
    assert_eq!(commands.unwrap(), [b"cc -O2 -c a.c -o a.o", b"cc -O1 -c b.c -o b.o"]);
}

/// More bytes and more steps than one ask has room for.
#[test]
fn texts_by_several_asks() {
    let long = Bundle::alone(long().as_bytes());
    let all: Vec<u32> = (0..512).collect();
    let turned: Vec<u32> = (0..512).rev().collect();
    let same = [3; 2_000];
    for steps in [&all[..], &turned, &same, &[0, 2].repeat(20)] {
        is_one_by_one(&long, steps);
    }
}

/// The texts before a refusal come first, and nothing behind it.
#[test]
fn refusals_come_in_their_place() {
    for refused in [2, 3, 4, 512, u32::MAX] {
        for steps in [&[refused][..], &[0, refused], &[0, 1, refused, 0, refused], &[1, refused, 2]]
        {
            is_one_by_one(&Bundle::alone(MANIFEST), steps);
        }
    }
    let long = Bundle::alone(long().as_bytes());
    let mut steps: Vec<u32> = (0..512).collect();
    for place in [0, 1, 20, 21, 22, 23, 300, 511] {
        let step = std::mem::replace(&mut steps[place], 512);
        is_one_by_one(&long, &steps);
        steps[place] = step;
    }
}

#[test]
fn refusals_of_the_manifest() {
    let bad_line = |offset| Some(Err(Refusal::BadLine(TextPlace { record: 0, offset })));
    let second = Bundle::alone(b"\nx\n");
    let mut some = texts(&second, &[0, 1], Wanted::Command);
    assert_eq!(some.next(), bad_line(1));
    assert_eq!(some.next(), None);
    // a place that is a step's number too
    let first = Bundle::alone(b"a\nx\n");
    let mut some = texts(&first, &[5, 0], Wanted::Command);
    assert_eq!(some.next(), bad_line(0));
    assert_eq!(some.next(), None);
    assert_eq!(texts(&second, &[], Wanted::Command).next(), None);
    let unsound = Bundle::from_bytes([]);
    let mut none = texts(&unsound, &[0], Wanted::Command);
    assert_eq!(none.next(), Some(Err(Refusal::BadBundle)));
    assert_eq!(none.next(), None);
}

/// Values that no proof speaks of: what is lent is written, what is beside it is not.
#[test]
fn lent_buffers() {
    let short = Said { number: 1, text: 0, value: 0 };
    let (bundle, mut bytes, mut ends) = (Bundle::alone(MANIFEST), [7; TEXT], [7; 4]);
    let ask = |steps: &[u32], bytes: &mut [u8], ends: &mut [u32]| {
        lent::texts(bundle.as_bytes(), steps, Wanted::Description, bytes, ends)
    };
    assert_eq!(ask(&[0], &mut bytes[..TEXT - 1], &mut ends), short);
    assert_eq!((bytes, ends), ([7; TEXT], [7; 4]));
    assert_eq!(
        ask(&[1, 0, 1, 1], &mut bytes, &mut ends[..3]),
        Said { number: 0, text: 0, value: 3 }
    );
    assert_eq!(bytes[..18], *b"CC a.oCC b.oCC a.o");
    assert_eq!(bytes[18..], [0; TEXT - 18]);
    assert_eq!(ends, [6, 12, 18, 7]);
    assert_eq!(ask(&[0], &mut bytes, &mut ends), Said { number: 0, text: 0, value: 1 });
    assert_eq!(ends, [6, 0, 0, 0]);
    assert_eq!(ask(&[0, 2], &mut bytes, &mut ends), Said { number: 18, text: 0, value: 2 });
    assert_eq!((bytes, ends), ([0; TEXT], [0; 4]));
    assert_eq!(ask(&[0, 2], &mut bytes, &mut []), Said { number: 0, text: 0, value: 0 });
    assert_eq!(ask(&[], &mut bytes, &mut []), Said { number: 0, text: 0, value: 0 });
}

/// A thread with no more stack than an ask is said to take, and 16 KiB for itself.
#[test]
fn little_stack() {
    let thread = std::thread::Builder::new().stack_size(STACK + (16 << 10));
    let count = thread.spawn(|| {
        let bundle = Bundle::alone(long().as_bytes());
        texts(&bundle, &[0, 1, 2], Wanted::Command).count()
    });
    assert_eq!(count.expect("a thread").join().expect("no panic"), 3);
}
