//! The random asks reach every refusal and every kind of answer often enough.

use second::bundle::{self, Bundle};
use second::generate::{ask, small_ask, SMALL};
use second::kind::Kind;
use second::{wire, Answer, Ask, Lent, Place, Refusal, Wanted};
use std::collections::BTreeMap;

const ASKS: u64 = 20_000;

/// How often each kind of answer comes.
fn count(draw: fn(u64) -> Ask) -> BTreeMap<Kind, u64> {
    let mut kinds = BTreeMap::new();
    for seed in 0..ASKS {
        *kinds.entry(Kind::of(&draw(seed).answer())).or_default() += 1;
    }
    println!("{kinds:#?}");
    kinds
}

fn check(kinds: &BTreeMap<Kind, u64>, expected: impl Iterator<Item = Kind>) {
    for kind in expected {
        assert!(kinds.get(&kind).is_some_and(|&count| count >= 20), "{kind}: {kinds:?}");
    }
}

#[test]
fn every_answer_occurs() {
    check(&count(ask), Kind::all());
}

#[test]
fn small_asks_are_small_and_reach_all_but_one_refusal() {
    check(&count(small_ask), Kind::all().filter(|&kind| kind != Kind::Refused(2)));
    let texts = |bundle: &[u8], counts| {
        let bundle = Bundle::read(bundle, counts);
        bundle.map_or(0, |bundle| bundle.records.iter().map(|(_, text)| text.len()).sum())
    };
    for Lent { bundle, headers, .. } in (0..ASKS).map(|seed| small_ask(seed).lent) {
        assert!(texts(&bundle, bundle::MANIFEST) <= SMALL, "{bundle:?}");
        assert!(texts(&headers, bundle::HEADERS) <= SMALL, "{headers:?}");
    }
}

#[test]
fn asks_and_answers_as_lines() {
    let alone = bundle::alone(b"\n");
    let hex: String = alone.iter().map(|byte| format!("{byte:02x}")).collect();
    let lent = Lent { card: vec![], targets: vec![97], ..Lent::bundle(alone) };
    let plan = Ask::plan(lent.clone());
    let none = "00000000100000001000000010000000";
    assert_eq!(plan.to_string(), format!("plan {hex} {none} - 61 512"));
    assert_eq!(plan.answer().to_string(), "refused 11 at 0");
    let unlisted = Ask::plan(Lent { headers: vec![], ..lent });
    assert_eq!(unlisted.to_string(), format!("plan {hex} - - 61 512"));
    assert_eq!(unlisted.answer().to_string(), "refused 20 at 0");
    let text = Ask::text(*b"\n", 7, Wanted::Description);
    assert_eq!(text.to_string(), format!("text {hex} 7 description 8192"));
    let texts = Ask::texts(*b"\n", &[7, 0, u32::MAX], Wanted::Command);
    assert_eq!(texts.to_string(), format!("texts {hex} command 8192 3 7 0 4294967295"));
    let none = Ask { lent: Lent::bundle([]), ..Ask::texts(b"", &[], Wanted::Description) };
    assert_eq!(none.to_string(), "texts - description 8192 0");
    for ask in [plan, unlisted, text, texts, none].into_iter().chain((0..200).map(ask)) {
        assert_eq!(ask.to_string().parse(), Ok(ask));
    }
    for (answer, line) in [
        (Answer::List(vec![]), "list"),
        (Answer::List(vec![0, 3, 1]), "list 0 3 1"),
        (Answer::Circle(vec![2]), "circle 2"),
        (Answer::Text(vec![]), "text -"),
        (Answer::Text(b"cc".to_vec()), "text 6363"),
        (Answer::Texts(vec![]), "texts"),
        (Answer::Texts(vec![vec![], b"cc".to_vec()]), "texts - 6363"),
        (Answer::Refused(Refusal::new(12, 17)), "refused 12 at 17"),
        (
            Answer::Refused(Refusal::new(4, Place::Text { record: 2, offset: 17 })),
            "refused 4 at 2:17",
        ),
    ] {
        assert_eq!(answer.to_string(), line);
        assert_eq!(line.parse(), Ok(answer));
    }
}

#[test]
fn lines_that_are_none() {
    let form = |line: &str| wire::Error::Form(line.to_string());
    for line in [
        "",
        "plan 0a - - 61",
        "text 0a 7 generator 8192",
        "program - - - -",
        "texts 0a command 8192",
    ] {
        assert_eq!(line.parse::<Ask>(), Err(form(line)));
    }
    assert_eq!("plan 0a - - 61 x".parse::<Ask>(), Err(wire::Error::Number("x".to_string())));
    let great = "texts 0a command 8192 1 4294967296".parse::<Ask>();
    assert_eq!(great, Err(wire::Error::Number("4294967296".to_string())));
    for hex in ["6", "6g", "+6", ""] {
        let line = format!("plan {hex} - - - 512");
        assert_eq!(line.parse::<Ask>(), Err(wire::Error::Hex(hex.to_string())));
    }
    for line in ["", "circles 0", "refused 4", "refused 4 of 17", "text"] {
        assert_eq!(line.parse::<Answer>(), Err(form(line)));
    }
    for line in [
        "list -1", "circle ", "refused 256 at 0", "refused 4 at -1", "refused 4 at 0:",
        "refused 4 at 0:1:2",
    ] {
        assert!(matches!(line.parse::<Answer>(), Err(wire::Error::Number(_))), "{line}");
    }
}
