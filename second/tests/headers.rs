//! Header lists: the reader of make-style texts against a transcription of its sentences, what a
//! writer spells, the texts of gcc, and that the random asks reach all that may happen to a list.

use second::bundle::{self, Bundle};
use second::cases::{files, folder, read};
use second::generate::headers::written;
use second::generate::{ask, small_ask};
use second::headers::Headers;
use second::rng::Rng;
use second::{depfile, limits, manifest, text};
use second::{Answer, Ask, Lent, Place, Question, Refusal};
use std::borrow::Cow;
use std::collections::{BTreeMap, BTreeSet};
use std::fs;

type Names = Vec<Vec<u8>>;

/// The first target of a rule, and its inputs.
type Rule = (Vec<u8>, Names);

/// What stands in a text, as the sentences tell it byte by byte.
#[derive(Clone, PartialEq, Eq)]
enum Item {
    Space,
    Newline,
    Colon,
    Byte(u8),
}

/// "backslash and newline count as a space, a backslash before a space or `#` gives that byte, `$$`
/// gives `$`; a lone `$` is malformed, other bytes are themselves"
fn items(text: &[u8]) -> Option<Vec<Item>> {
    match text {
        [] => Some(Vec::new()),
        [b'\\', b'\n', rest @ ..] => Some([vec![Item::Space], items(rest)?].concat()),
        [b'\\', byte @ (b' ' | b'#'), rest @ ..] => {
            Some([vec![Item::Byte(*byte)], items(rest)?].concat())
        }
        [b'$', b'$', rest @ ..] => Some([vec![Item::Byte(b'$')], items(rest)?].concat()),
        [b'$', ..] => None,
        [byte, rest @ ..] => {
            let item = match byte {
                b' ' => Item::Space,
                b'\n' => Item::Newline,
                b':' => Item::Colon,
                byte => Item::Byte(*byte),
            };
            Some([vec![item], items(rest)?].concat())
        }
    }
}

/// "names between spaces"
fn names(items: &[Item]) -> Names {
    let words = items.split(|item| *item == Item::Space).filter(|word| !word.is_empty());
    let byte = |item: &Item| match item {
        Item::Byte(byte) => *byte,
        Item::Colon => b':',
        Item::Space | Item::Newline => unreachable!("a word has none"),
    };
    words.map(|word| word.iter().map(byte).collect()).collect()
}

/// "one rule and blank lines; targets up to the first colon"; without a target it is nobody's list.
fn transcribed(text: &[u8]) -> Option<Rule> {
    let items = items(text)?;
    let lines = items.split(|item| *item == Item::Newline);
    let is_blank = |line: &&[Item]| line.iter().all(|item| *item == Item::Space);
    let rules: Vec<&[Item]> = lines.filter(|line| !is_blank(line)).collect();
    let [rule] = rules[..] else { return None };
    let colon = rule.iter().position(|item| *item == Item::Colon)?;
    let target = names(&rule[..colon]).into_iter().next()?;
    Some((target, names(&rule[colon + 1..])))
}

fn taken(text: &[u8]) -> Option<Rule> {
    let depfile::Rule { target, inputs } = depfile::read(text)?;
    Some((target.into_owned(), inputs.into_iter().map(Cow::into_owned).collect()))
}

#[test]
fn short_texts_are_read_as_transcribed() {
    // all texts of seven of these bytes and fewer
    let bytes = b"a \n\\:$#";
    let (mut sound, mut all) = (0, 0);
    for length in 0..=7 {
        for number in 0..bytes.len().pow(length) {
            let text: Vec<u8> = (0..length)
                .map(|place| bytes[number / bytes.len().pow(place) % bytes.len()])
                .collect();
            let read = taken(&text);
            assert_eq!(read, transcribed(&text), "{}", text.escape_ascii());
            sound += u32::from(read.is_some());
            all += 1;
        }
    }
    println!("{sound} of {all} are sound");
    assert!(sound > 100_000 && all - sound > 100_000, "{sound} of {all}");
}

#[test]
fn long_texts_are_read_as_transcribed() {
    let pieces: &[&str] = &[
        "a", "b.h", " ", "  ", "\n", "\\\n", "\\", "\\ ", "\\#", "#", ":", "$$", "\t", "\r", "\0",
        "é", "left\\ hand",
    ];
    let (mut sound, mut several) = (0, 0);
    for seed in 0..100_000 {
        let rng = &mut Rng::new(seed);
        let mut text = rng.pick(&["o:", "o :", "", "\n o p: "]).to_string();
        for _ in 0..rng.below(20) {
            // a newline is rare, so that many are sound
            let piece = rng.pick(pieces);
            text += if piece == "\n" && rng.chance(80) { "x" } else { piece };
        }
        let read = taken(text.as_bytes());
        assert_eq!(read, transcribed(text.as_bytes()), "{text:?}");
        sound += u32::from(read.is_some());
        several += u32::from(read.is_some_and(|(_, inputs)| inputs.len() > 2));
    }
    println!("{sound} sound, {several} with three inputs and more");
    assert!(sound > 20_000 && several > 10_000, "{sound} {several}");
}

/// What is spelled is read back, for names of any bytes but a newline, and in targets a colon.
#[test]
fn what_is_spelled_is_read() {
    for seed in 0..100_000 {
        let rng = &mut Rng::new(seed);
        let name = |rng: &mut Rng, but: &[u8]| -> Vec<u8> {
            let byte = |rng: &mut Rng| match rng.below(3) {
                0 => *rng.pick(&[&b'\\', &b' ', &b'#', &b'$', &b':', &b'a']),
                _ => rng.below(256) as u8,
            };
            let length = rng.between(1, 9);
            let bytes = (0..length).map(|_| byte(rng));
            bytes.map(|byte| if but.contains(&byte) { b'x' } else { byte }).collect()
        };
        let mut target = name(rng, b"\n:");
        // before a colon or a space a backslash that ends a target would escape nothing, or it
        if target.ends_with(b"\\") {
            target.push(b'o');
        }
        let inputs: Names = (0..rng.below(6)).map(|_| name(rng, b"\n")).collect();
        let spelled: Vec<&[u8]> = inputs.iter().map(Vec::as_slice).collect();
        let text = written(rng, &target, &spelled);
        let read = taken(&text);
        assert_eq!(read, Some((target, inputs)), "{}", text.escape_ascii());
    }
}

/// Each text of `/cases/gcc` is that of the case with its name.
#[test]
fn cases_have_the_texts_of_gcc() {
    let cases = read(&files(&folder()).unwrap()).unwrap();
    let kept = fs::read_dir(folder().join("gcc")).unwrap().map(|entry| entry.unwrap().path());
    let kept: Vec<_> = kept.filter(|path| path.extension().is_some_and(|e| e == "d")).collect();
    assert!(kept.len() >= 15, "{kept:?}");
    for path in kept {
        let text = fs::read(&path).unwrap();
        let name = format!("gcc-{}", path.file_stem().unwrap().to_string_lossy());
        let case = cases.iter().find(|case| case.name == name).unwrap_or_else(|| panic!("{name}"));
        let lists = Bundle::read(&case.lent.headers, bundle::HEADERS).unwrap();
        assert!(lists.records.iter().any(|(_, list)| *list == text), "{name}");
    }
}

/// Why a list is refused with 20 at a step, by the sentences.
fn reason(lent: &Lent, step: usize) -> &'static str {
    let lists = Bundle::read(&lent.headers, bundle::HEADERS).expect("a sound bundle");
    let read = manifest::read(&lent.bundle).expect("a sound manifest");
    let mut seen: BTreeSet<Vec<u8>> = read.files.names.iter().map(|name| name.to_vec()).collect();
    let (mut mentions, mut together) = (read.mentions, read.together);
    for number in (0..=step).filter(|&number| !read.graph.steps[number].phony) {
        let path = text::depfile(&read, number).expect("a name");
        let Some(record) = lists.find(&path) else { continue };
        let Some((target, inputs)) = transcribed(lists.records[record].1) else {
            return "20, malformed";
        };
        let first = read.files.name(read.graph.steps[number].outputs[0]);
        if target != first {
            return if number > 0 && path == text::depfile(&read, 0).unwrap_or_default() {
                "20, another step's depfile"
            } else {
                "20, another target"
            };
        }
        for name in inputs {
            mentions += 1;
            together += name.len();
            let length = name.len();
            seen.insert(name);
            match () {
                _ if length > 255 => return "20, a path",
                _ if seen.len() > 1_024 => return "20, files",
                _ if mentions > 4_096 => return "20, mentions",
                _ if together > 60_000 => return "20, bytes together",
                _ => {}
            }
        }
    }
    panic!("nothing to refuse at {step}: {lent}")
}

/// What an ask shows of header lists.
fn kinds(ask: &Ask) -> Vec<&'static str> {
    let Question::Plan { .. } = ask.question else { return Vec::new() };
    let answer = ask.answer();
    match answer.refusal() {
        Some(Refusal { number: 20, place: Place::Number(place) }) => {
            if Headers::read(&ask.lent.headers).is_err() {
                return vec!["20 at 0"];
            }
            return vec![reason(&ask.lent, place)];
        }
        Some(Refusal { number: 16, .. }) => return vec!["16 of a depfile"],
        Some(Refusal { number: 17, .. }) => return vec!["17 of a depfile"],
        _ => {}
    }
    planned(ask, &answer)
}

/// The same with no list: what the lists make of the answer.
fn planned(ask: &Ask, answer: &Answer) -> Vec<&'static str> {
    let Ok(mut manifest) = manifest::read(&ask.lent.bundle) else { return Vec::new() };
    let files = manifest.graph.files;
    let Ok(lists) = Headers::read(&ask.lent.headers) else { return Vec::new() };
    if lists.add_to(&mut manifest).is_err() {
        return Vec::new();
    }
    let steps = &manifest.graph.steps;
    let mut kinds = Vec::new();
    if manifest.graph.files > files {
        kinds.push("a file that only a list names");
    }
    if let Answer::List(list) = answer {
        let lacks = |&step: &u32| steps[step as usize].lacks_list;
        if list.iter().any(lacks) {
            kinds.push("a missing depfile");
        }
        if !list.is_sorted() && steps.iter().any(|step| !step.listed.is_empty()) {
            kinds.push("an order with lists");
        }
    }
    if steps.iter().all(|step| step.listed.is_empty()) {
        return kinds;
    }
    // the lists of no inputs: as if the lists named nothing
    let records: Vec<(Vec<u8>, Vec<u8>)> = (0..steps.len())
        .filter(|&step| !steps[step].phony)
        .map(|step| {
            let first = manifest.files.name(steps[step].outputs[0]).to_vec();
            let text = written(&mut Rng::new(0), &first, &[]);
            (text::depfile(&manifest, step).unwrap_or_default(), text)
        })
        .filter(|(path, _)| (1..=limits::PATH).contains(&path.len()))
        .collect();
    let present = Bundle::read(&ask.lent.headers, bundle::HEADERS).expect("a sound bundle");
    let records: Vec<(&[u8], &[u8])> = records
        .iter()
        .map(|(path, text)| (&path[..], &text[..]))
        .filter(|(path, _)| present.find(path).is_some())
        .collect();
    let lent = Lent { headers: bundle::write(&records), ..ask.lent.clone() };
    let without = Ask { lent, question: ask.question.clone() }.answer();
    kinds.push(match (answer, &without) {
        (Answer::Circle(_), Answer::Circle(_)) => "a circle without lists too",
        (Answer::Circle(_), _) => "a circle by lists",
        (Answer::List(_), Answer::List(other)) if answer == &Answer::List(other.clone()) => {
            "lists that change nothing"
        }
        (Answer::List(_), Answer::List(_)) => "steps that are stale by lists",
        (Answer::Refused(one), Answer::List(_)) if one.number == 15 => "15 by a listed maker",
        _ => "other",
    });
    kinds
}

#[test]
fn all_that_may_happen_to_a_list() {
    const ASKS: u64 = 60_000;
    let full = ["20, files", "20, mentions"];
    for (draw, more) in [(ask as fn(u64) -> Ask, &full[..]), (small_ask, &[])] {
        let mut counts: BTreeMap<&str, u64> = BTreeMap::new();
        for kind in (0..ASKS).flat_map(|seed| kinds(&draw(seed))) {
            *counts.entry(kind).or_default() += 1;
        }
        println!("{counts:#?}");
        let all = [
            "20 at 0",
            "20, malformed",
            "20, another target",
            "20, another step's depfile",
            "20, a path",
            "20, bytes together",
            "16 of a depfile",
            "17 of a depfile",
            "a file that only a list names",
            "a missing depfile",
            "an order with lists",
            "a circle by lists",
            "lists that change nothing",
            "steps that are stale by lists",
            "15 by a listed maker",
        ];
        for kind in all.iter().chain(more) {
            assert!(counts.get(kind).is_some_and(|&count| count >= 10), "{kind}: {counts:?}");
        }
    }
}
