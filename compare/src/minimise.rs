//! Makes an ask smaller as long as something holds of it: steps of a list, files, header lists and
//! their lines, card records and target names are dropped, then bytes.

use second::bundle::{self, Bundle};
use second::{card, limits, Ask, Question};

/// The ask with as little left as `holds` allows to drop part by part. `holds` is true of the ask
/// given.
pub fn minimise(mut ask: Ask, holds: impl Fn(&Ask) -> bool) -> Ask {
    loop {
        let before = ask.clone();
        ask = question(ask, &holds);
        ask = by_steps(ask, &holds);
        ask = by_files(ask, |ask| &mut ask.lent.bundle, bundle::MANIFEST, &holds);
        ask = by_files(ask, |ask| &mut ask.lent.headers, bundle::HEADERS, &holds);
        ask = by_lines(ask, |ask| &mut ask.lent.targets, &holds);
        ask = by_records(ask, |ask| &mut ask.lent.card, &holds);
        if ask == before {
            return ask;
        }
    }
}

/// The least buffers that will do, and the lowest steps.
fn question(ask: Ask, holds: &impl Fn(&Ask) -> bool) -> Ask {
    let with = |question| Ask { question, ..ask.clone() };
    let tries = match ask.question.clone() {
        Question::Plan { .. } => vec![Question::PLAN],
        Question::Texts { steps, wanted, buf_len, ends_len } => {
            let lent = |steps: &[u32], buf_len, ends_len| {
                let steps = steps.to_vec();
                Question::Texts { steps, wanted, buf_len, ends_len }
            };
            let shorter =
                (0..ends_len.min(steps.len() + 1)).map(|ends_len| lent(&steps, buf_len, ends_len));
            let lower = (0..steps.len()).map(|place| {
                let mut steps = steps.clone();
                steps[place] = 0;
                lent(&steps, buf_len, ends_len)
            });
            let least = lent(&steps, limits::TEXT, ends_len);
            [least].into_iter().chain(shorter).chain(lower).collect()
        }
        Question::Text { step, wanted, buf_len } => {
            let least = Question::Text { step, wanted, buf_len: limits::TEXT };
            let lower = (0..step).map(|step| Question::Text { step, wanted, buf_len });
            [least].into_iter().chain(lower).collect()
        }
    };
    // what it has already is no smaller
    let others = tries.into_iter().filter(|question| *question != ask.question);
    let smaller = others.map(with).find(|smaller| holds(smaller));
    smaller.unwrap_or(ask)
}

/// Drops steps of a texts ask.
fn by_steps(ask: Ask, holds: &impl Fn(&Ask) -> bool) -> Ask {
    let Question::Texts { steps, wanted, buf_len, ends_len } = ask.question.clone() else {
        return ask;
    };
    let with = |steps: &[u32]| {
        let question = Question::Texts { steps: steps.to_vec(), wanted, buf_len, ends_len };
        Ask { question, ..ask.clone() }
    };
    with(&dropped(steps, |steps| holds(&with(steps))))
}

/// A part of an ask that is lent.
type Part = fn(&mut Ask) -> &mut Vec<u8>;

fn with(ask: &Ask, part: Part, bytes: Vec<u8>) -> Ask {
    let mut ask = ask.clone();
    *part(&mut ask) = bytes;
    ask
}

/// Drops lines of a part, then bytes.
fn by_lines(mut ask: Ask, part: Part, holds: &impl Fn(&Ask) -> bool) -> Ask {
    let lines = lines(part(&mut ask));
    let lines = dropped(lines, |lines| holds(&with(&ask, part, lines.concat())));
    let bytes = dropped(lines.concat(), |bytes| holds(&with(&ask, part, bytes.to_vec())));
    with(&ask, part, bytes)
}

/// Drops files of a part that is a bundle but for as many leading ones as it has at least, then lines
/// and bytes of each text; bytes where it is no sound bundle.
fn by_files(
    mut ask: Ask,
    part: Part,
    (least, most): (usize, usize),
    holds: &impl Fn(&Ask) -> bool,
) -> Ask {
    let bytes = part(&mut ask).clone();
    let Some(Bundle { records }) = Bundle::read(&bytes, (least, most)) else {
        let least = dropped(bytes, |bytes| holds(&with(&ask, part, bytes.to_vec())));
        return with(&ask, part, least);
    };
    let mut files: Vec<_> = records.iter().map(|(name, text)| (*name, text.to_vec())).collect();
    let written = |files: &[(&[u8], Vec<u8>)]| {
        let files: Vec<_> = files.iter().map(|(name, text)| (*name, &text[..])).collect();
        with(&ask, part, bundle::write(&files))
    };
    let others = files.split_off(least);
    let under = |others: &[_]| [&files[..], others].concat();
    let mut files = under(&dropped(others, |others| holds(&written(&under(others)))));
    for at in 0..files.len() {
        let of = |text: Vec<u8>| {
            let mut files = files.clone();
            files[at].1 = text;
            files
        };
        let lines = dropped(lines(&files[at].1), |lines| holds(&written(&of(lines.concat()))));
        let text = dropped(lines.concat(), |text| holds(&written(&of(text.to_vec()))));
        files[at].1 = text;
    }
    written(&files)
}

/// Drops records of a part that is a card, or bytes where it is no sound one.
fn by_records(mut ask: Ask, part: Part, holds: &impl Fn(&Ask) -> bool) -> Ask {
    let bytes = part(&mut ask).clone();
    let smaller = match card::read(&bytes) {
        Ok(records) => {
            card::write(&dropped(records, |records| holds(&with(&ask, part, card::write(records)))))
        }
        Err(_) => dropped(bytes, |bytes| holds(&with(&ask, part, bytes.to_vec()))),
    };
    with(&ask, part, smaller)
}

/// Lines with their newlines.
fn lines(bytes: &[u8]) -> Vec<Vec<u8>> {
    bytes.split_inclusive(|&byte| byte == b'\n').map(<[u8]>::to_vec).collect()
}

/// The parts that are left when run after run of them is dropped, shorter and shorter ones, as long
/// as `holds` allows it.
fn dropped<T: Clone>(mut parts: Vec<T>, holds: impl Fn(&[T]) -> bool) -> Vec<T> {
    let mut run = parts.len();
    while run > 0 {
        let mut at = 0;
        while at < parts.len() {
            let mut fewer = parts.clone();
            fewer.drain(at..(at + run).min(parts.len()));
            if holds(&fewer) {
                parts = fewer;
            } else {
                at += run;
            }
        }
        run /= 2;
    }
    parts
}
