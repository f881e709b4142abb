//! The asks, whole, against the second planner's. `ASKS` in the environment runs another number of
//! asks, from seed `FROM` on; `cargo run --release --bin differ SEED COUNT` runs millions.

use compare::adversary;
use compare::asks::{asks, compare, judge, ours, run, Buffer, Filled, Ours};
use compare::minimise::minimise;
use compare::settings::setting;
use kestrenyo::lent::Said;
use second::bundle::{self, Bundle};
use second::kind::Kind;
use second::{limits, Answer, Ask, Lent, Place, Question, Refusal};
use std::ops::Not;

const ASKS: u64 = 200_000;

#[test]
fn asks_agree() {
    let (count, from) = (setting("ASKS", ASKS), setting("FROM", 0));
    let counts = run(from, count, |_| ()).unwrap_or_else(|differing| {
        let ask = minimise(differing.ask, |ask| compare(ask).is_err());
        panic!("{}\n{ask}\n{}", differing.difference, String::from_utf8_lossy(&ask.lent.bundle))
    });
    println!("{counts:?}");
    for kind in Kind::all() {
        assert!(counts.get(&kind).is_some_and(|&asks| asks > count / 2_000), "{kind}: {counts:?}");
    }
}

/// The asks of some seeds with an answer of this kind.
fn some(kind: Kind) -> impl Iterator<Item = Ask> {
    (0..2_000).flat_map(asks).filter(move |ask| Kind::of(&ask.answer()) == kind)
}

/// Each part of an answer that is changed is noticed.
#[test]
fn differences_are_noticed() {
    for kind in Kind::all() {
        let ask = some(kind).next().unwrap_or_else(|| panic!("no ask for {kind}"));
        let (right, theirs) = (ours(&ask), ask.answer());
        assert_eq!(judge(&ask, &right, &theirs), Ok(()));
        for wrong in changed(&right) {
            assert!(judge(&ask, &wrong, &theirs).is_err(), "{kind}: {ask} {wrong:?}");
        }
    }
}

/// The answer with one thing changed: its number, its text, its value, and in each buffer what is
/// lent, or what lies before or behind that.
fn changed(right: &Ours) -> Vec<Ours> {
    let said = |change: fn(&mut Said)| {
        let mut wrong = right.clone();
        match &mut wrong {
            Ours::Plan(said, _) | Ours::Text(said, _) | Ours::Texts(said, _, _) => change(said),
        }
        wrong
    };
    let mut all = vec![
        said(|said| said.number += 1),
        said(|said| said.text += 1),
        said(|said| said.value += 1),
    ];
    match right {
        Ours::Plan(said, list) => {
            all.extend(edited(list, said.value).map(|list| Ours::Plan(*said, list)));
        }
        Ours::Text(said, buffer) => {
            all.extend(edited(buffer, 0).map(|buffer| Ours::Text(*said, buffer)));
        }
        Ours::Texts(said, bytes, ends) => {
            let of_bytes = edited(bytes, said.value);
            all.extend(of_bytes.map(|bytes| Ours::Texts(*said, bytes, ends.clone())));
            let of_ends = edited(ends, said.value);
            all.extend(of_ends.map(|ends| Ours::Texts(*said, bytes.clone(), ends)));
        }
    }
    all
}

/// The buffer with another value at a place of what is lent, before it and behind it.
fn edited<T: Filled + Not<Output = T>>(
    buffer: &Buffer<T>,
    place: usize,
) -> impl Iterator<Item = Buffer<T>> {
    let lent = buffer.clone().lent().len();
    let front = (buffer.all.len() - lent) / 2;
    let at = [front + place.min(lent.saturating_sub(1)), front - 1, buffer.all.len() - 1];
    let edit = |at: usize| {
        let mut wrong = buffer.clone();
        wrong.all[at] = !wrong.all[at];
        wrong
    };
    at.map(edit).into_iter()
}

/// A circle that is none is noticed, whatever its length.
#[test]
fn circles_are_true_ones() {
    for ask in some(Kind::Refused(14)).take(100) {
        let Ours::Plan(said, list) = ours(&ask) else { panic!("no plan") };
        let theirs = ask.answer();
        for place in 0..said.value {
            let mut wrong = list.clone();
            wrong.lent()[place] = 511;
            assert!(judge(&ask, &Ours::Plan(said, wrong), &theirs).is_err(), "{ask}");
        }
        let (mut longer, mut more) = (said, list.clone());
        more.lent()[said.value] = more.lent()[0];
        longer.value += 1;
        assert!(judge(&ask, &Ours::Plan(longer, more), &theirs).is_err(), "{ask}");
    }
}

/// A thread with no more stack than an ask is said to take, and 16 KiB for what asks it, comes
/// through all of these.
#[test]
fn asks_take_no_more_stack() {
    let asks: Vec<Ask> = (0..1_000)
        .flat_map(asks)
        .chain(adversary::all().into_iter().map(|slow| slow.ask))
        .collect();
    let thread = std::thread::Builder::new().stack_size(kestrenyo::STACK + (16 << 10));
    let asked = thread.spawn(move || asks.iter().map(ours).count()).expect("a thread");
    assert!(asked.join().expect("no panic") > 1_000);
}

/// The bytes of all texts of a bundle.
fn texts_of(ask: &Ask) -> usize {
    let records = bundle::read(&ask.lent.bundle).unwrap_or_default();
    records.iter().map(|record| record.text.len()).sum()
}

/// The smaller ask keeps what it was made smaller for, and little else.
#[test]
fn asks_are_minimised() {
    let is_list = |ask: &Ask| matches!(ask.answer(), Answer::List(steps) if !steps.is_empty());
    let is_alone = |ask: &Ask| bundle::text_alone(&ask.lent.bundle).is_some();
    let ask = some(Kind::List).find(|ask| is_alone(ask) && texts_of(ask) > 100).expect("a list");
    let least = minimise(ask, is_list);
    assert!(is_list(&least) && texts_of(&least) < 40, "{least}");
    let Lent { targets, card, .. } = least.lent;
    assert!(targets.is_empty() && card.len() <= 40, "{} {}", targets.len(), card.len());
}

/// Files that nothing needs are dropped, and lines of those that are left.
#[test]
fn bundles_are_minimised() {
    let is_missing = |ask: &Ask| {
        let place = ask.answer().refusal().filter(|refusal| refusal.number == 19);
        place.is_some_and(|refusal| refusal.place.text() > 1)
    };
    let many = |ask: &Ask| bundle::read(&ask.lent.bundle).is_ok_and(|files| files.len() > 3);
    let ask = some(Kind::Refused(19)).find(|ask| is_missing(ask) && many(ask)).expect("a 19");
    let least = minimise(ask, is_missing);
    let files = bundle::read(&least.lent.bundle).expect("a sound bundle");
    assert!(is_missing(&least) && texts_of(&least) < 40 && files.len() == 2, "{least}");
}

/// So are header lists.
#[test]
fn lists_are_minimised() {
    let is_refused = |ask: &Ask| {
        let refusal = ask.answer().refusal();
        matches!(refusal, Some(Refusal { number: 20, place: Place::Number(1..) }))
    };
    let lists = |ask: &Ask| {
        let lists = Bundle::read(&ask.lent.headers, bundle::HEADERS);
        lists.map_or(0, |lists| lists.records.len())
    };
    let ask = some(Kind::Refused(20)).find(|ask| is_refused(ask) && lists(ask) > 1).expect("a 20");
    let least = minimise(ask, is_refused);
    assert!(is_refused(&least) && texts_of(&least) < 80 && lists(&least) == 1, "{least}");
}

/// So does a texts ask, whose list and buffers get shorter too.
#[test]
fn texts_asks_are_minimised() {
    let has_two = |ask: &Ask| matches!(ask.answer(), Answer::Texts(texts) if texts.len() > 1);
    let is_long = |ask: &Ask| {
        let Question::Texts { steps, buf_len, ends_len, .. } = &ask.question else { return false };
        steps.len() > 4 && *buf_len > limits::TEXT && *ends_len > 2
    };
    let ask = some(Kind::Texts).find(|ask| has_two(ask) && is_long(ask)).expect("texts");
    let least = minimise(ask, has_two);
    assert!(has_two(&least) && texts_of(&least) < 40, "{least}");
    let Question::Texts { steps, buf_len, ends_len, .. } = least.question else { panic!("texts") };
    assert_eq!((steps, buf_len, ends_len), (vec![0, 0], limits::TEXT, 2));
}
