//! The texts ask against a transcription of what is said of it, by the answers of single text asks.

use second::generate::{ask, small_ask};
use second::{limits, Answer, Ask, Question, Refusal};
use std::collections::BTreeMap;

const ASKS: u64 = 40_000;

/// Why the walk over the steps ended, or was not begun.
#[derive(Debug, Clone, Copy, PartialEq, Eq, PartialOrd, Ord)]
enum Ending {
    /// All texts are written.
    All,
    /// The next text has more bytes than are left.
    Bytes,
    /// The next text would fit, but its end has no room.
    Ends,
    Refused(u8),
}

/// What a texts ask is to answer, why, and how many texts came before that.
struct Outcome {
    answer: Answer,
    ending: Ending,
    before: usize,
}

impl Outcome {
    fn refused(refusal: Refusal, before: usize) -> Self {
        let (answer, ending) = (Answer::Refused(refusal), Ending::Refused(refusal.number));
        Outcome { answer, ending, before }
    }

    fn written(texts: Vec<Vec<u8>>, ending: Ending) -> Self {
        let before = texts.len();
        Outcome { answer: Answer::Texts(texts), ending, before }
    }
}

/// The outcome of a texts ask, from the text ask of each step; nothing of other asks.
fn transcribed(ask: &Ask) -> Option<Outcome> {
    let Question::Texts { steps, wanted, buf_len, ends_len } = &ask.question else { return None };
    if *buf_len < limits::TEXT {
        return Some(Outcome::refused(Refusal::new(1, 0), 0));
    }
    let single = |step| {
        let question = Question::text(step as usize, *wanted);
        Ask { lent: ask.lent.clone(), question }.answer()
    };
    // what the reading refuses it refuses for any step, and with an empty list too
    if let Some(refusal) =
        single(0).refusal().filter(|refusal| matches!(refusal.number, 1..=10 | 19))
    {
        return Some(Outcome::refused(refusal, 0));
    }
    let (mut texts, mut written) = (Vec::new(), 0);
    let mut known: BTreeMap<u32, Answer> = BTreeMap::new();
    for &step in steps {
        let Answer::Text(text) = known.entry(step).or_insert_with(|| single(step)) else {
            return Some(Outcome::refused(known[&step].refusal()?, texts.len()));
        };
        if written + text.len() > *buf_len {
            return Some(Outcome::written(texts, Ending::Bytes));
        }
        if texts.len() == *ends_len {
            return Some(Outcome::written(texts, Ending::Ends));
        }
        written += text.len();
        texts.push(text.clone());
    }
    Some(Outcome::written(texts, Ending::All))
}

/// How often each ending came, with texts before it or without, and what is rare.
#[derive(Debug, Default)]
struct Counts {
    endings: BTreeMap<(Ending, bool), u64>,
    /// Texts that take every byte of the lent buffer.
    full: u64,
    /// A text refused at a step whose end would have had no room.
    refused_past_ends: u64,
}

impl Counts {
    fn count(&mut self, ask: &Ask, outcome: &Outcome) {
        let Question::Texts { buf_len, ends_len, .. } = ask.question else { return };
        let Outcome { answer, ending, before } = outcome;
        *self.endings.entry((*ending, *before > 0)).or_default() += 1;
        match answer {
            Answer::Texts(texts) => self.full += u64::from(texts.concat().len() == buf_len),
            _ => {
                let of_a_text = matches!(ending, Ending::Refused(16..=18));
                self.refused_past_ends += u64::from(of_a_text && *before == ends_len);
            }
        }
    }

    /// Each of these came five times at least.
    fn check(&self, refusals: impl Iterator<Item = u8>) {
        let of_lists = [(Ending::All, true), (Ending::All, false), (Ending::Bytes, true)];
        let of_ends = [(Ending::Ends, true), (Ending::Ends, false)];
        let of_steps = (16..=18).map(|number| (Ending::Refused(number), true));
        let refused = refusals.map(|number| (Ending::Refused(number), false));
        for ending in of_lists.into_iter().chain(of_ends).chain(of_steps).chain(refused) {
            assert!(self.endings.get(&ending).is_some_and(|&c| c >= 5), "{ending:?}: {self:?}");
        }
        assert!(self.full >= 5 && self.refused_past_ends >= 5, "{self:?}");
    }
}

/// How often each ending comes, after seeing that the answers are as transcribed.
fn compared(draw: fn(u64) -> Ask) -> Counts {
    let mut counts = Counts::default();
    for ask in (0..ASKS).map(draw) {
        if let Some(outcome) = transcribed(&ask) {
            assert_eq!(ask.answer(), outcome.answer, "{ask}");
            counts.count(&ask, &outcome);
        }
    }
    println!("{counts:?}");
    counts
}

#[test]
fn texts_are_as_transcribed() {
    compared(ask).check((1..=10).chain(16..=19));
}

#[test]
fn texts_of_small_manifests_are_as_transcribed() {
    compared(small_ask).check([1].into_iter().chain(3..=10).chain(16..=19));
}
