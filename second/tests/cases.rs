//! All cases of `/cases`, put to the second planner.

use second::cases::{
    ask_lines, check, files, folder, pack, parse, program_line, read, texts_lines,
};
use second::cases::{Error, Expected, Fault, TooGreat};
use second::{bundle, headers, Answer, Lent, Place, Refusal};
use std::fs;
use std::path::Path;

#[test]
fn all_cases_pass() {
    let cases = read(&files(&folder()).unwrap()).unwrap();
    assert!(cases.len() >= 300, "only {} cases", cases.len());
    let differences: Vec<_> = cases.iter().flat_map(check).collect();
    let shown: Vec<_> = differences.iter().map(|difference| difference.to_string()).collect();
    assert!(differences.is_empty(), "{}", shown.join("\n"));
}

#[test]
fn the_format_is_read_as_described() {
    let content = r"
case one
  says Equal times are fresh.
  manifest
    | a = \{3 \i\j,}\s
    |
    + \@b\x00
  card a 5, b c 6
  targets a b\sc
  plan refused 3 at @
case two
  reading 3
  manifest of one
  card raw 4:1 1:2 =
  targets raw a\n
  plan circle 1 2 or 3
  text 7 description = \{2 x}
  text-buffer 9000
  ends-buffer 4
  texts \{2 \i }7 command = a\, = refused ,,
  texts description =
  texts 4294967295 command refused 18 at 4294967295
  prints
    | no work
";
    let cases = parse("sample", content).unwrap();
    assert_eq!(cases[0].manifest_alone(), Some(&b"a = 000,101,202, \n\nb\0"[..]));
    let header = [2, 0, 0, 0, 16, 0, 0, 0, 48, 0, 0, 0, 52, 0, 0, 0];
    let records = [
        0, 0, 0, 0, 1, 0, 0, 0, 5, 0, 0, 0, 0, 0, 0, 0, 1, 0, 0, 0, 3, 0, 0, 0, 6, 0, 0, 0, 0, 0,
        0, 0,
    ];
    assert_eq!(cases[0].lent.card, [&header[..], &records, b"ab c"].concat());
    assert_eq!(cases[0].lent.targets, b"a\nb c\n");
    let place = Place::Text { record: 0, offset: 19 };
    let marked = Expected::One(Answer::Refused(Refusal::new(3, place)));
    assert_eq!(cases[0].asks[0].1, marked);
    assert_eq!(cases[1].lent.bundle, cases[0].lent.bundle);
    assert_eq!(cases[1].lent.card, [1, 0, 0, 0, 2]);
    let bundle: String = cases[0].lent.bundle.iter().map(|byte| format!("{byte:02x}")).collect();
    assert!(bundle.ends_with("61203d203030302c3130312c3230322c200a0a6200"));
    let none = "00000000100000001000000010000000";
    let lent = format!("{none} 0100000002 610a");
    assert_eq!(
        ask_lines(&cases[1]),
        [
            format!("two plan {bundle} {lent} 512 -> circle 1 2 or 3"),
            format!("two text {bundle} 7 description 9000 -> text 7878"),
        ]
    );
    assert_eq!(
        texts_lines(&cases[1]),
        [
            format!(
                "two texts {bundle} command 9000 4 0 1 7 -> texts 612c203d207265667573656420 -"
            ),
            format!("two texts {bundle} description 9000 4 -> texts"),
            format!("two texts {bundle} command 9000 4 4294967295 -> refused 18 at 4294967295"),
        ]
    );
    let program = format!("two program {bundle} {lent} -> text 6e6f20776f726b0a");
    assert_eq!(program_line(&cases[1]), Some(program));
    assert_eq!(program_line(&cases[0]), None);
}

#[test]
fn files_are_read_as_described() {
    let content = r"
case one
  says x
  file a\sb
    | x = 1
    + \@y
  files \{2 \i }
  file c
  plan refused 3 at @
case two
  says x
  manifest of one
  bundle put 12 4:7 =z
  bundle cut 3
  bundle put end =yy
  plan refused 19 at 0
case three
  says x
  bundle raw 4:1 =a
  plan refused 4 at 2:17
";
    let cases = parse("sample", content).unwrap();
    let files: &[(&[u8], &[u8])] = &[(b"a b", b"x = 1\ny"), (b"0", b""), (b"1", b""), (b"c", b"")];
    let bundle = bundle::write(files);
    assert_eq!(cases[0].lent.bundle, bundle);
    let refused = |number, place| Expected::One(Answer::Refused(Refusal::new(number, place)));
    assert_eq!(cases[0].asks[0].1, refused(3, Place::Text { record: 0, offset: 6 }));
    assert_eq!(cases[0].manifest_alone(), None);
    let end = bundle.len() - 3;
    assert_eq!(
        cases[1].lent.bundle,
        [&bundle[..12], b"\x07\0\0\0z", &bundle[17..end], b"yy"].concat()
    );
    assert_eq!(cases[2].lent.bundle, [1, 0, 0, 0, b'a']);
    assert_eq!(cases[2].asks[0].1, refused(4, Place::Text { record: 2, offset: 17 }));
}

#[test]
fn header_lists_are_read_as_described() {
    let content = r"
case one
  says x
  manifest
    |
  depfile a\sb
    | x: \\\\
    + y
  depfiles \{2 \i }
  plan refused 20 at 7
case two
  says x
  manifest of one
  plan list
case three
  says x
  file a
  depfile b
    | c
  headers cut 2
  headers put end =yy
  plan refused 20 at 0
";
    let cases = parse("sample", content).unwrap();
    let lists: &[(&[u8], &[u8])] = &[(b"a b", b"x: \\\\\ny"), (b"0", b""), (b"1", b"")];
    assert_eq!(cases[0].lent.headers, bundle::write(lists));
    let refused = |place: usize| Expected::One(Answer::Refused(Refusal::new(20, place)));
    assert_eq!(cases[0].asks[0].1, refused(7));
    assert_eq!(cases[0].manifest_alone(), None);
    // no lists, and not those of the case whose manifest it has
    assert_eq!(cases[1].lent.headers, headers::none());
    assert_eq!(cases[1].manifest_alone(), Some(&b"\n"[..]));
    let list = bundle::write(&[(b"b", b"c\n")]);
    assert_eq!(cases[2].lent.headers, [&list[..list.len() - 2], b"yy"].concat());
}

#[test]
fn a_circle_may_begin_anywhere_but_not_turn_round() {
    let circles = Expected::Circles(vec![vec![0, 1, 2], vec![3]]);
    for answer in ["circle 0 1 2", "circle 1 2 0", "circle 2 0 1", "circle 3"] {
        assert!(circles.allows(&answer.parse().unwrap()), "{answer}");
    }
    for answer in ["circle 2 1 0", "circle 0 1", "circle 0 1 2 0", "list 3", "refused 14 at 1"] {
        assert!(!circles.allows(&answer.parse().unwrap()), "{answer}");
    }
    let list = Expected::One(Answer::List(vec![0, 1]));
    assert!(list.allows(&Answer::List(vec![0, 1])) && !list.allows(&Answer::List(vec![1, 0])));
}

#[test]
fn errors_name_file_and_line() {
    for (content, error) in [
        ("says x", "f:1: before the first `case`"),
        ("case a b", "f:1: a case has a name of one word"),
        ("case a\n\nspeaks", "f:3: unknown word `speaks`"),
        ("case a\nsays", "f:2: an empty `says`"),
        ("case a\nsays x\nmanifest\nplan list \n", "f:4: spaces at the end of a line; write \\s"),
        ("case a\nmanifest\nplan list", "f:1: the case a has no `says`, `reading` or `manual`"),
        ("case a\nsays x", "f:1: the case a has no manifest"),
        ("case a\nsays x\nmanifest\ncase b", "f:1: the case a has no expected answer"),
        (
            "case a\nsays x\nfile b\nprints",
            "f:1: the case a has no manifest that the program would lend: `build.ninja` alone, \
             without header lists",
        ),
        (
            "case a\nsays x\nmanifest\ndepfile b\nprints",
            "f:1: the case a has no manifest that the program would lend: `build.ninja` alone, \
             without header lists",
        ),
    ] {
        assert_eq!(parse("f", content).unwrap_err().to_string(), error);
    }
}

/// The lines of a case that come after its manifest, and what is wrong with the last one.
#[test]
fn faults_of_lines() {
    let expected = |what| Fault::Expected(what);
    let number = |word: &str| Fault::Number(word.to_string());
    for (lines, fault) in [
        ("manifest", Fault::Second("manifest")),
        ("plan list\nplan list", Fault::Second("plan")),
        ("targets raw \\@\ncard \\@a 1", Fault::Second("\\@")),
        ("targets raw \\@\\@", Fault::Second("\\@")),
        ("targets a\n| x", Fault::StrayPiece),
        ("plan refused 4 at @", Fault::NoMark),
        ("plan refused 4", expected("`refused NUMBER at PLACE`")),
        ("plan refused x at 0", number("x")),
        ("plan refused 4 at x", number("x")),
        ("plan refused 4 at 0:x", number("0:x")),
        ("plan refused 4 at 7", Fault::Place(Refusal::new(4, 7))),
        ("plan refused 19 at 7", Fault::Place(Refusal::new(19, 7))),
        ("plan refused 15 at 0:7", Fault::Place(Refusal::new(15, 7).in_text(0))),
        ("file a", Fault::Second("manifest")),
        ("files a", Fault::Second("manifest")),
        ("bundle raw =", Fault::Second("manifest")),
        ("bundle", expected("`bundle raw`, `bundle cut` or `bundle put`")),
        ("bundle cut 44", Fault::Beyond(44)),
        ("bundle put 44 =a", Fault::Beyond(44)),
        ("bundle put x =a", number("x")),
        ("bundle put 0 a", expected("`WIDTH:NUMBER` or `=TEXT`")),
        ("depfile a\nheaders raw =", Fault::Second("headers")),
        ("headers raw =\ndepfile a", Fault::Second("headers")),
        ("headers cut 1\ndepfiles a", Fault::Second("headers")),
        ("headers", expected("`headers raw`, `headers cut` or `headers put`")),
        ("headers cut 17", Fault::Beyond(17)),
        ("depfile a\n| a: \\@b", Fault::MarkInList),
        ("plan steps 1", expected("`list`, `circle` or `refused`")),
        ("plan list 4294967296", number("4294967296")),
        ("plan circle", Fault::EmptyCircle),
        ("plan circle 1 or  or 2", Fault::EmptyCircle),
        ("text 0 generator = x", expected("`command` or `description`")),
        ("text 0 command x", expected("`=` or `refused`")),
        ("text x command = x", number("x")),
        ("texts 0 generator = x,", expected("`command` or `description`")),
        ("texts = x,", expected("`=` or `refused`")),
        ("texts 0 command x", expected("`=` or `refused`")),
        ("texts 0 command = x", expected("a comma behind each text")),
        ("texts 0 command = x\\,", expected("a comma behind each text")),
        ("texts 4294967296 command = x,", number("4294967296")),
        ("texts x command refused 18 at 0", number("x")),
        ("texts 0 command refused 18", expected("`refused NUMBER at PLACE`")),
        ("ends-buffer x", number("x")),
        ("list-buffer x", number("x")),
        ("card a", expected("`NAME TIME` between commas")),
        ("card a x", number("x")),
        ("card raw x", expected("`WIDTH:NUMBER` or `=TEXT`")),
        ("card raw 2:1", Fault::Width(2)),
        ("card raw 1:256", Fault::TooWide { value: 256, width: 1 }),
        ("targets \\q", Fault::UnknownEscape),
        ("targets a\\", Fault::UnknownEscape),
        ("targets \\x0", Fault::NoHexDigits),
        ("targets \\i", Fault::StrayIndex),
        ("targets \\{1297 \\j}", Fault::LongIndex(1296)),
        ("targets \\{2 x", Fault::Unclosed),
        ("targets \\{0 x}", expected("`\\{COUNT TEXT}` with a count from 1")),
        ("targets \\{2x}", expected("`\\{COUNT TEXT}` with a count from 1")),
    ] {
        let content = format!("case a\nmanifest\n{lines}\n");
        match parse("f", &content) {
            Err(Error::Line(origin, found)) => {
                assert_eq!(found, fault, "{lines}");
                assert_eq!(origin.line, content.lines().count(), "{lines}");
            }
            other => panic!("{lines}: {other:?}"),
        }
    }
    let missing = parse("f", "case a\nmanifest of b").unwrap_err();
    assert_eq!(missing.to_string(), "f:2: no earlier case b in this file");
    let form = parse("f", "case a\nmanifest b").unwrap_err();
    assert_eq!(form.to_string(), "f:2: expected `manifest` or `manifest of NAME`");
}

#[test]
fn files_that_are_no_cases() {
    let room = Path::new(env!("CARGO_TARGET_TMPDIR")).join("cases");
    fs::create_dir_all(&room).unwrap();
    let paths = ["one.cases", "other.cases", "none"].map(|name| room.join(name));
    let (written, missing) = paths.split_at(2);
    for path in written {
        fs::write(path, "# c\ncase a\n  says x\n  manifest\n  plan list\n").unwrap();
    }
    assert_eq!(files(&room).unwrap(), written);
    assert_eq!(read(&written[..1]).unwrap().len(), 1);
    let taken = read(written).unwrap_err().to_string();
    assert_eq!(taken, "other.cases:2: the name a is taken at one.cases:2");
    let is_missing =
        |error: &Error| matches!(error, Error::Unreadable(path, _) if *path == missing[0]);
    assert!(files(&missing[0]).is_err_and(|error| is_missing(&error)));
    assert!(read(missing).is_err_and(|error| is_missing(&error)));
    fs::remove_dir_all(&room).unwrap();
}

#[test]
fn packed_numbers_have_four_bytes() {
    let case = |length: usize| {
        let case = format!("case a\nsays x\nmanifest\nlist-buffer {length}\nplan list\n");
        parse("f", &case).unwrap()
    };
    assert!(pack(&case(0xffff_ffff)).is_ok());
    assert_eq!(pack(&case(0x1_0000_0000)), Err(TooGreat(0x1_0000_0000)));
}

/// The proved program `cases` reads what a case lends into a buffer of 65,536 bytes.
#[test]
fn packed_cases_have_room() {
    for case in read(&files(&folder()).unwrap()).unwrap() {
        let Lent { bundle, headers, card, targets } = &case.lent;
        let parts = [case.name.as_bytes(), bundle, headers, card, targets];
        let length: usize = parts.iter().map(|part| part.len()).sum();
        assert!(length <= 65_536, "{}: {length}", case.name);
    }
}

/// An answer has its number, its text's record and one more, and its value in two numbers.
#[test]
fn packed_places() {
    let packed = |lines: &str| pack(&parse("f", &format!("case a\nsays x\n{lines}\n")).unwrap());
    let answer = |lines: &str| {
        let packed = packed(lines).unwrap();
        let end = packed.len() - 24;
        let words = packed[end - 20..end].chunks(4).map(|word| word[0]);
        words.collect::<Vec<u8>>()
    };
    assert_eq!(answer("manifest\nplan list"), [0, 0, 0, 0, 0]);
    assert_eq!(answer("manifest\nplan refused 15 at 7"), [15, 0, 7, 0, 0]);
    assert_eq!(answer("manifest\nplan refused 4 at 0:7"), [4, 1, 7, 0, 0]);
    assert_eq!(answer("file a\nfile b\nplan refused 19 at 1:9"), [19, 2, 9, 0, 0]);
    assert_eq!(answer("bundle raw\nplan refused 19 at 0"), [19, 0, 0, 0, 0]);
}

/// A texts ask changes nothing of what is packed, and a case with no other is left out.
#[test]
fn texts_asks_are_not_packed() {
    let case = |asks: &str| {
        pack(&parse("f", &format!("case a\nsays x\nmanifest\n{asks}\n")).unwrap()).unwrap()
    };
    assert_eq!(case("texts command ="), [0; 24]);
    assert_eq!(case("plan list\ntexts command ="), case("plan list"));
}
