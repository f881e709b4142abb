//! Bundles of several files: the random ones reach all that may happen to one, and a bundle of
//! included files answers as the one text does that has their lines in their places.

use second::bundle::{self, Record};
use second::bytes::class;
use second::generate::{ask, small_ask};
use second::manifest;
use second::{limits, Answer, Ask, Lent, Place, Refusal};
use std::collections::BTreeMap;

const ASKS: u64 = 40_000;

/// What an opening line names, if it is written without dollars.
fn opened<'a>(line: &'a [u8], keyword: &str) -> Option<&'a [u8]> {
    let rest = line.strip_prefix(keyword.as_bytes())?.strip_suffix(b"\n")?;
    if rest.contains(&b'$') || rest.first().is_some_and(|&byte| class(byte).in_name()) {
        return None;
    }
    let mut paths = rest.split(|&byte| byte == b' ').filter(|path| !path.is_empty());
    paths.next().filter(|_| paths.next().is_none())
}

fn lines(text: &[u8]) -> impl Iterator<Item = &[u8]> {
    text.split_inclusive(|&byte| byte == b'\n')
}

/// The text with the lines of included files in place of what opens them; nothing if there are
/// openings of another kind, or too many.
fn flat(records: &[Record], at: usize, left: &mut usize) -> Option<Vec<u8>> {
    *left = left.checked_sub(1)?;
    let mut text = Vec::new();
    let mut is_joined = false;
    for line in lines(records[at].text) {
        let is_opening = line.starts_with(b"include") || line.starts_with(b"subninja");
        match opened(line, "include").and_then(|name| bundle::find(records, name)) {
            Some(record) if !is_joined => text.extend(flat(records, record, left)?),
            _ if is_opening => return None,
            _ => text.extend_from_slice(line),
        }
        is_joined = line.ends_with(b"$\n");
    }
    Some(text)
}

/// A list's 20 goes on with the reading's counts, to which what opens a file adds its path.
fn is_of_the_reading(answer: &Answer) -> bool {
    answer.refusal().is_some_and(|refusal| matches!(refusal.number, 1..=10 | 19 | 20))
}

#[test]
fn included_lines_stand_in_their_places() {
    let (mut compared, mut refused) = (0, 0);
    for ask in (0..ASKS).map(ask).chain((0..ASKS).map(small_ask)) {
        let answer = ask.answer();
        let Ok(records) = bundle::read(&ask.lent.bundle) else { continue };
        if records.len() == 1 || is_of_the_reading(&answer) {
            continue;
        }
        let Some(flat) = flat(&records, 0, &mut limits::OPENED.clone()) else { continue };
        if flat == records[0].text || flat.len() > limits::MANIFEST {
            continue;
        }
        let lent = Lent { bundle: bundle::alone(&flat), ..ask.lent.clone() };
        let alone = Ask { lent, question: ask.question.clone() };
        assert_eq!(alone.answer(), answer, "{ask}");
        compared += 1;
        refused += u64::from(answer.refusal().is_some());
    }
    println!("{compared} compared, {refused} of them refusals");
    assert!(compared >= 1_000 && refused >= 100, "{compared} {refused}");
}

/// Why a 19 is given, after seeing that it is at the first line that has to be refused so. Where a
/// line is joined to another or an opening is written with dollars nothing is seen.
fn reason(records: &[Record], place: Place) -> &'static str {
    if place == Place::Number(0) {
        return "19 at 0";
    }
    let is_opening = |line: &[u8]| line.starts_with(b"include") || line.starts_with(b"subninja");
    let is_hard = |line: &[u8]| line.ends_with(b"$\n") || is_opening(line) && line.contains(&b'$');
    if records.iter().flat_map(|record| lines(record.text)).any(is_hard) {
        return "19 with dollars";
    }
    let (reason, first) = first_19(records, 0, 1, &mut 1).expect("a line to refuse");
    assert_eq!(first, place, "{reason}");
    reason
}

/// The first line that opens what may not be opened, by the letter: `open` files are open, `opened`
/// have been opened so far.
fn first_19(
    records: &[Record],
    record: usize,
    open: usize,
    opened_so_far: &mut usize,
) -> Option<(&'static str, Place)> {
    let mut offset = 0;
    for line in lines(records[record].text) {
        if let Some(name) = opened(line, "include").or(opened(line, "subninja")) {
            let place = Place::Text { record, offset };
            let Some(child) = bundle::find(records, name) else {
                return Some(("19, not in the bundle", place));
            };
            if open == 8 {
                return Some(("19, a ninth open", place));
            }
            if *opened_so_far == 64 {
                return Some(("19, a 65th opened", place));
            }
            *opened_so_far += 1;
            let within = first_19(records, child, open + 1, opened_so_far);
            if within.is_some() {
                return within;
            }
        }
        offset += line.len();
    }
    None
}

fn kind(ask: &Ask) -> Option<&'static str> {
    let records = bundle::read(&ask.lent.bundle).unwrap_or_default();
    let answer = ask.answer();
    match answer.refusal() {
        Some(Refusal { number: 19, place }) => Some(reason(&records, place)),
        Some(Refusal { number: 2, .. }) if records.len() > 1 => Some("2 of several texts"),
        Some(Refusal { number, place: Place::Text { record: 1.., .. } }) => Some(match number {
            3 => "3 in a later record",
            4 => "4 in a later record",
            5 => "5 in a later record",
            6 => "6 in a later record",
            7 => "7 in a later record",
            8 => "8 in a later record",
            9 => "9 in a later record",
            _ => "10 in a later record",
        }),
        Some(Refusal { number: 1..=10, .. }) => None,
        _ => read_kind(ask, &answer),
    }
}

/// Of what is read, how deep its scopes are.
fn read_kind(ask: &Ask, answer: &Answer) -> Option<&'static str> {
    let manifest = manifest::read(&ask.lent.bundle).ok()?;
    let scopes = &manifest.file_scopes;
    let depth =
        |scope: &usize| std::iter::successors(Some(*scope), |&scope| scopes[scope].parent).count();
    let deepest = (0..scopes.len()).map(|scope| depth(&scope)).max()?;
    let is_text = matches!(answer, Answer::Text(text) if !text.is_empty());
    match (deepest, is_text) {
        (1, _) => None,
        (2, true) => Some("text, a scope in another"),
        (2, false) => Some("other, a scope in another"),
        (_, true) => Some("text, scopes three deep"),
        (_, false) => Some("other, scopes three deep"),
    }
}

#[test]
fn all_that_may_happen_to_a_bundle() {
    for (draw, more) in [(ask as fn(u64) -> Ask, &["2 of several texts"][..]), (small_ask, &[])] {
        let mut kinds: BTreeMap<&str, u64> = BTreeMap::new();
        for kind in (0..ASKS).filter_map(|seed| kind(&draw(seed))) {
            *kinds.entry(kind).or_default() += 1;
        }
        println!("{kinds:#?}");
        let all = [
            "19 at 0",
            "19, a ninth open",
            "19, a 65th opened",
            "19, not in the bundle",
            "19 with dollars",
            "3 in a later record",
            "4 in a later record",
            "5 in a later record",
            "6 in a later record",
            "7 in a later record",
            "8 in a later record",
            "9 in a later record",
            "10 in a later record",
            "text, a scope in another",
            "other, a scope in another",
            "text, scopes three deep",
            "other, scopes three deep",
        ];
        for kind in all.iter().chain(more) {
            assert!(kinds.get(kind).is_some_and(|&count| count >= 20), "{kind}: {kinds:?}");
        }
    }
}
