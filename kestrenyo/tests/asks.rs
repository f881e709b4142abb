//! What a Rust caller gets: answers, each refusal, lent buffers, and the stack that an ask takes.

use kestrenyo::lent::{self, Said};
use kestrenyo::{card, text, Bundle, CardError, Headers, Place, Refusal, TextPlace, Wanted};
use kestrenyo::{LIST, STACK, TEXT};
use std::error::Error;

const MANIFEST: &[u8] = b"cflags = -O1
rule cc
  command = cc $cflags -c $in -o $out
  description = CC $out
build b.o: cc b.c
build a.o: cc a.c | t.h
  cflags = -O2
build axis: phony a.o b.o
default axis
";

/// A plan without header lists.
fn plan(bundle: &Bundle, card: &[u8], targets: &[u8]) -> Result<Vec<u32>, Refusal> {
    kestrenyo::plan(bundle, &Headers::none(), card, targets)
}

fn bench() -> Bundle {
    Bundle::alone(MANIFEST)
}

fn bench_card() -> Vec<u8> {
    card(&[("t.h", 9), ("a.c", 5), ("b.c", 5), ("a.o", 7)]).unwrap()
}

/// A card without files.
fn empty_card() -> Vec<u8> {
    card::<&str>(&[]).unwrap()
}

#[test]
fn answers() {
    assert_eq!(plan(&bench(), &bench_card(), b""), Ok(vec![0, 1]));
    assert_eq!(plan(&bench(), &bench_card(), b"a.o\n"), Ok(vec![1]));
    assert_eq!(plan(&Bundle::alone(b""), &empty_card(), b""), Ok(vec![]));
    assert_eq!(text(&bench(), 1, Wanted::Command), Ok(b"cc -O2 -c a.c -o a.o".to_vec()));
    assert_eq!(text(&bench(), 0, Wanted::Description), Ok(b"CC b.o".to_vec()));
}

/// The bench example in three files: its rule is included, and the flags of one step are those of a
/// file of its own.
#[test]
fn split_manifests() {
    let top = b"cflags = -O1\ninclude rules\nbuild b.o: cc b.c\nsubninja sub\ndefault b.o a.o\n";
    let mut bundle = Bundle::alone(top);
    bundle.add("sub", b"cflags = -O2\nbuild a.o: cc a.c | t.h\n").unwrap();
    bundle.add("rules", b"rule cc\n  command = cc $cflags -c $in -o $out\n").unwrap();
    assert_eq!(plan(&bundle, &bench_card(), b""), Ok(vec![0, 1]));
    assert_eq!(text(&bundle, 0, Wanted::Command), Ok(b"cc -O1 -c b.c -o b.o".to_vec()));
    assert_eq!(text(&bundle, 1, Wanted::Command), Ok(b"cc -O2 -c a.c -o a.o".to_vec()));

    let mut faulty = Bundle::alone(b"\ninclude a\n");
    faulty.add("b", b"#\n").unwrap().add("a", b"#\n\ninclude c\n").unwrap();
    let refusal = plan(&faulty, &empty_card(), b"").unwrap_err();
    assert_eq!(refusal, Refusal::BadOpening(TextPlace { record: 2, offset: 3 }));
    assert!(refusal.to_string().starts_with("refused 19 at 2:3: the line at byte 3 of record 2 "));
    let located = refusal.located(&faulty).to_string();
    assert!(located.starts_with("a:3:1: refused 19 at 2:3: "), "{located}");
}

/// The bench example with depfiles: the header that step 1 has written is listed by both steps.
#[test]
fn header_lists() {
    let depfile = "  depfile = $out.d\n";
    let manifest = String::from_utf8(MANIFEST.to_vec())
        .unwrap()
        .replace("  desc", &(depfile.to_owned() + "  desc"));
    let bundle = Bundle::alone(manifest.as_bytes());
    let times = card(&[("t.h", 6), ("a.c", 5), ("b.c", 5), ("a.o", 7), ("b.o", 7)]).unwrap();
    let plan = |lists: &Headers, card: &[u8]| kestrenyo::plan(&bundle, lists, card, b"");
    assert_eq!(plan(&Headers::none(), &times), Ok(vec![0, 1]));
    let mut lists = Headers::of([("a.o.d", "a.o: a.c t.h\n")]).unwrap();
    assert_eq!(plan(&lists, &times), Ok(vec![0]));
    lists.add("b.o.d", "\nb.o: b.c \\\n t.h\n").unwrap();
    assert_eq!(plan(&lists, &times), Ok(vec![]));
    assert_eq!(plan(&lists, &bench_card()), Ok(vec![0, 1]));

    let of = |text: &str| Headers::of([("a.o.d", text), ("b.o.d", "b.o:")]).unwrap();
    for malformed in ["", "a.o: $\n", "b.o: b.c\n", "a.o: a.c\na.c:\n"] {
        let refusal = plan(&of(malformed), &times).unwrap_err();
        assert_eq!(refusal, Refusal::BadList(1), "{malformed}");
        assert!(refusal.to_string().starts_with("refused 20 at 1: the header list of step 1 "));
    }
    let cut = Headers::from_bytes(&lists.as_bytes()[..lists.as_bytes().len() - 1]);
    assert_eq!(plan(&cut, &times), Err(Refusal::BadList(0)));
    assert_eq!(plan(&of("a.o: a.o\n"), &times), Err(Refusal::Circle(vec![1])));
}

#[test]
fn a_card_of_one_file() {
    let mut bytes = vec![1, 0, 0, 0, 16, 0, 0, 0, 32, 0, 0, 0, 33, 0, 0, 0, 0, 0, 0, 0, 1, 0, 0, 0];
    bytes.extend([5, 0, 0, 0, 0, 0, 0, 0, b'a']);
    assert_eq!(card(&[("a", 5)]), Ok(bytes));
}

/// What is at each limit of a card is written, and the planner takes it; what is beyond is refused,
/// with a sentence.
#[test]
fn cards_at_their_limits() {
    let latest = i64::MAX as u64;
    let numbered = |count: usize| (0..count).map(|k| (format!("{k:04}"), 1)).collect::<Vec<_>>();
    let written = [
        card(&[("a", 1)]),
        card(&[("a", latest)]),
        card(&[("n".repeat(255), 1)]),
        card(&[("b", 1), ("a", 1), ("ab", 2)]),
        card(&numbered(1_024)),
        card(&longest(49_152)),
        card(&[([0u8, 255, b'\n'], 1)]),
    ];
    for card in written {
        assert_eq!(plan(&Bundle::alone(b""), &card.unwrap(), b""), Ok(vec![]));
    }
    assert_eq!(card(&longest(49_152)).map(|card| card.len()), Ok(49_152));
    let bad_time = |time| CardError::BadTime { name: b"a".to_vec(), time };
    let refused = [
        (card(&[("", 1)]), CardError::EmptyName, "no byte"),
        (
            card(&[("n".repeat(256), 1)]),
            CardError::LongName(vec![b'n'; 256]),
            "256 bytes, and 255 at most fit: nnn",
        ),
        (
            card(&[("a", 1), ("b", 1), ("a", 2)]),
            CardError::SameName(b"a".to_vec()),
            "a name is there twice: a",
        ),
        (card(&[("a", 0)]), bad_time(0), "1 to 2^63 - 1, and not 0: a"),
        (card(&[("a", latest + 1)]), bad_time(latest + 1), "and not 9223372036854775808: a"),
        (card(&[("a", u64::MAX)]), bad_time(u64::MAX), "and not 18446744073709551615: a"),
        (card(&numbered(1_025)), CardError::ManyFiles(1_025), "at most 1,024 files, and not 1025"),
        (card(&longest(49_153)), CardError::LongCard(49_153), "at most 49,152 bytes"),
    ];
    for (card, right, sentence) in refused {
        let error = card.unwrap_err();
        assert_eq!(error, right);
        let error: &dyn Error = &error;
        assert!(error.to_string().contains(sentence), "{error}");
    }
}

/// Files whose card has so many bytes: names of 255 bytes and a shorter one.
fn longest(bytes: usize) -> Vec<(String, u64)> {
    let count = (bytes - 16) / (16 + 255);
    let rest = bytes - 16 - count * (16 + 255);
    let mut files: Vec<_> = (0..count).map(|k| (format!("{k:0255}"), 1)).collect();
    files.push(("n".repeat(rest - 16), 1));
    files
}

#[test]
fn refusals() {
    let empty = empty_card();
    let refused = |manifest: &[u8], targets: &[u8]| {
        plan(&Bundle::alone(manifest), &empty, targets).unwrap_err()
    };
    let unread = |step, manifest: &str| {
        text(&Bundle::alone(manifest.as_bytes()), step, Wanted::Command).unwrap_err()
    };
    let at = |offset| TextPlace { record: 0, offset };
    let rule = "rule r\n  command = ";
    let no_card = plan(&Bundle::alone(b""), b"", b"").unwrap_err();
    let told = [
        (refused(&[b'\n'; 49_153], b""), Refusal::LongManifest, 2, "0"),
        (refused(b"a = \t\n", b""), Refusal::BadByte(at(4)), 3, "0:4"),
        (refused(b"\nx\n", b""), Refusal::BadLine(at(1)), 4, "0:1"),
        (refused(b"a = $.\n", b""), Refusal::BadDollar(at(4)), 5, "0:4"),
        (refused(b"\npool p\n", b""), Refusal::NotYet(at(1)), 6, "0:1"),
        (refused(b"\nbuild a: r\n", b""), Refusal::BadRule(at(1)), 7, "0:1"),
        (refused(b"\ndefault a\n", b""), Refusal::BadPath(at(1)), 8, "0:1"),
        (
            refused(format!("\n{} = 1\n", "n".repeat(65)).as_bytes(), b""),
            Refusal::OverLimit(at(1)),
            9,
            "0:1",
        ),
        (
            refused(b"\nninja_required_version = 1.5.1\n", b""),
            Refusal::BadVersion(at(1)),
            10,
            "0:1",
        ),
        (no_card, Refusal::BadCard, 11, "0"),
        (refused(b"build a: phony\n", b"a\nb\n"), Refusal::BadTarget(2), 12, "2"),
        (refused(b"build a: phony a\n", b""), Refusal::NoRoot, 13, "0"),
        (refused(b"build a: phony a\n", b"a\n"), Refusal::Circle(vec![0]), 14, "1"),
        (refused(b"build a: phony b\n", b""), Refusal::MissingSource(1), 15, "1"),
        (unread(0, &format!("{rule}$command\nbuild a: r\n")), Refusal::EndlessText(0), 16, "0"),
        (unread(0, &long_text()), Refusal::LongText(0), 17, "0"),
        (unread(0, "build a: phony\n"), Refusal::NoCommand(0), 18, "0"),
        (unread(usize::MAX, ""), Refusal::NoCommand(usize::MAX), 18, "18446744073709551615"),
        (refused(b"\ninclude a\n", b""), Refusal::BadOpening(at(1)), 19, "0:1"),
        (plan(&Bundle::new(), &empty, b"").unwrap_err(), Refusal::BadBundle, 19, "0"),
        (
            kestrenyo::plan(&Bundle::alone(b""), &Headers::from_bytes([]), &empty, b"")
                .unwrap_err(),
            Refusal::BadList(0),
            20,
            "0",
        ),
    ];
    for (refusal, right, number, place) in told {
        assert_eq!(refusal, right);
        assert_eq!((refusal.number(), refusal.place().to_string()), (number, place.to_string()));
        let (front, sentence) = (format!("refused {number} at {place}: "), refusal.to_string());
        assert!(sentence.starts_with(&front) && sentence.len() > front.len(), "{sentence}");
        let is_in_text = matches!(refusal.place(), Place::Text(_));
        assert_eq!(is_in_text, matches!(number, 3..=10) || place == "0:1");
    }
}

/// A text of 5 times 2,048 bytes.
fn long_text() -> String {
    format!("v = {}\nrule r\n  command = $v$v$v$v$v\nbuild a: r\n", "x".repeat(2_048))
}

#[test]
fn a_circle_of_two() {
    let manifest = b"build a: phony b\nbuild b: phony || a\nbuild c: phony a\n";
    let Err(Refusal::Circle(mut steps)) = plan(&Bundle::alone(manifest), &empty_card(), b"") else {
        panic!("no circle")
    };
    steps.sort();
    assert_eq!(steps, [0, 1]);
}

#[test]
fn lent_buffers() {
    let (bundle, headers, mut list) = (bench(), Headers::none(), [7; LIST + 1]);
    let (bundle, none) = (bundle.as_bytes(), headers.as_bytes());
    let short = Said { number: 1, text: 0, value: 0 };
    assert_eq!(lent::plan(bundle, none, &bench_card(), b"", &mut list[..LIST - 1]), short);
    assert_eq!(list, [7; LIST + 1]);
    let said = lent::plan(bundle, none, &bench_card(), b"", &mut list);
    assert_eq!(said, Said { number: 0, text: 0, value: 2 });
    assert_eq!(list[..2], [0, 1]);
    assert_eq!(list[2..], [0; LIST - 1]);

    let mut buffer = [7; TEXT];
    assert_eq!(lent::text(bundle, 0, Wanted::Command, &mut buffer[..TEXT - 1]), short);
    assert_eq!(buffer, [7; TEXT]);
    let said = lent::text(bundle, 2, Wanted::Command, &mut buffer);
    assert_eq!(said, Said { number: 18, text: 0, value: 2 });
    assert_eq!(buffer, [0; TEXT]);
    let said = lent::text(Bundle::alone(b"\nx\n").as_bytes(), 2, Wanted::Command, &mut buffer);
    assert_eq!(said, Said { number: 4, text: 1, value: 1 });
    assert_eq!(said.place(), Place::Text(TextPlace { record: 0, offset: 1 }));
    let said = lent::text(b"", 2, Wanted::Command, &mut buffer);
    assert_eq!(said, Said { number: 19, text: 0, value: 0 });
}

/// The asks of a thread with no more stack than they are said to take and 16 KiB for itself, and of
/// several threads at a time.
#[test]
fn threads() {
    let ask = || {
        let (bundle, none, card) = (bench(), Headers::none(), bench_card());
        let mut list = vec![0; LIST];
        let said = lent::plan(bundle.as_bytes(), none.as_bytes(), &card, b"", &mut list);
        let mut buffer = vec![0; TEXT];
        let texts = lent::text(bundle.as_bytes(), 1, Wanted::Command, &mut buffer);
        (said, texts, list, buffer)
    };
    let spawn = |_| {
        let thread = std::thread::Builder::new().stack_size(STACK + (16 << 10));
        thread.spawn(move || (0..100).map(|_| ask()).collect::<Vec<_>>()).expect("a thread")
    };
    let threads: Vec<_> = (0..4).map(spawn).collect();
    let alone = ask();
    for thread in threads {
        assert!(thread.join().expect("no panic").iter().all(|said| *said == alone));
    }
}
