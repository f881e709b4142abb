//! The packed form of the cases, which the proved program `cases` reads: every plan and text ask. A
//! texts ask has two lent buffers and is not packed: `compare/` puts it to the library.
//! Every number has four bytes, the lowest first:
//!
//! - a case: where its name, bundle, header lists, card and target list end that follow one behind
//!   another, how many asks follow, those bytes, and the asks; the last one has only zeros
//! - an ask: 0 for a plan, 1 for a command, 2 for a description; the step, in two numbers; the
//!   length of the lent buffer; how many answers are right, and these
//! - an answer: its number, 0 or a refusal's; 0 where its value is a number by itself (a count, or a
//!   place that is no place in a text), else the number of the text's record and one more; its value,
//!   in two numbers; the number of bytes that the lent buffer begins with, and these; zeros follow

use super::{Case, Expected};
use crate::{Answer, Lent, Question, Wanted};
use std::error::Error;
use std::fmt::{self, Display, Formatter};

/// All cases, packed.
pub fn pack(cases: &[Case]) -> Result<Vec<u8>, TooGreat> {
    let mut packed = cases.iter().map(packed_case).collect::<Result<Vec<_>, _>>()?.concat();
    packed.extend([0; 24]);
    Ok(packed)
}

/// A number that four bytes have no room for, such as the length of a lent buffer.
#[derive(Debug, Clone, Copy, PartialEq, Eq)]
pub struct TooGreat(pub usize);

impl Display for TooGreat {
    fn fmt(&self, f: &mut Formatter) -> fmt::Result {
        write!(f, "{} has over four bytes", self.0)
    }
}

impl Error for TooGreat {}

fn number(value: usize) -> Result<[u8; 4], TooGreat> {
    u32::try_from(value).map(u32::to_le_bytes).map_err(|_| TooGreat(value))
}

fn numbers(values: &[usize]) -> Result<Vec<u8>, TooGreat> {
    Ok(values.iter().map(|&value| number(value)).collect::<Result<Vec<_>, _>>()?.concat())
}

fn low(value: usize) -> usize {
    value % (1 << 32)
}

fn high(value: usize) -> usize {
    value >> 32
}

/// What the lent buffers hold before an ask.
const BEFORE: u8 = 7;

/// What is packed of a question.
struct Asked {
    /// 0 for a plan, 1 for a command, 2 for a description.
    kind: usize,
    step: usize,
    /// The length of the lent buffer.
    room: usize,
}

impl Asked {
    /// A texts ask is not packed.
    fn of(question: &Question) -> Option<Self> {
        match *question {
            Question::Plan { list_len } => Some(Asked { kind: 0, step: 0, room: list_len }),
            Question::Text { step, wanted, buf_len } => {
                let kind = match wanted {
                    Wanted::Command => 1,
                    Wanted::Description => 2,
                };
                Some(Asked { kind, step, room: buf_len })
            }
            Question::Texts { .. } => None,
        }
    }

    /// What the lent buffer begins with after an answer.
    fn left(&self, answer: &Answer) -> Vec<u8> {
        match answer {
            Answer::List(steps) | Answer::Circle(steps) => words(steps),
            Answer::Text(bytes) => bytes.clone(),
            Answer::Texts(texts) => texts.concat(),
            // 1 touches nothing.
            Answer::Refused(refusal) if refusal.number == 1 => match self.kind {
                0 => words(&vec![u32::from(BEFORE); self.room]),
                _ => vec![BEFORE; self.room],
            },
            Answer::Refused(_) => Vec::new(),
        }
    }
}

fn words(numbers: &[u32]) -> Vec<u8> {
    numbers.iter().flat_map(|number| number.to_le_bytes()).collect()
}

fn packed_ask(asked: &Asked, expected: &Expected) -> Result<Vec<u8>, TooGreat> {
    let Asked { kind, step, room } = *asked;
    let answers = expected.answers();
    let mut packed = numbers(&[kind, low(step), high(step), room, answers.len()])?;
    for answer in answers {
        let (refused, text, value) = answer.numbers();
        let left = asked.left(&answer);
        packed.extend(numbers(&[refused.into(), text, low(value), high(value), left.len()])?);
        packed.extend(left);
    }
    Ok(packed)
}

fn packed_case(case: &Case) -> Result<Vec<u8>, TooGreat> {
    let asks = case.asks.iter();
    let asks = asks.filter_map(|(question, expected)| Some((Asked::of(question)?, expected)));
    let asks: Vec<_> = asks.collect();
    if asks.is_empty() {
        return Ok(Vec::new());
    }
    let Lent { bundle, headers, card, targets } = &case.lent;
    let parts = [case.name.as_bytes(), bundle, headers, card, targets];
    let ends = parts.iter().scan(0, |end, part| {
        *end += part.len();
        Some(*end)
    });
    let head: Vec<_> = ends.chain([asks.len()]).collect();
    let mut packed = numbers(&head)?;
    packed.extend(parts.concat());
    for (asked, expected) in &asks {
        packed.extend(packed_ask(asked, expected)?);
    }
    Ok(packed)
}
