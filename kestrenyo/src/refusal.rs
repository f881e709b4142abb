//! The refusals of documents 01 and 02 as an enum.

use crate::lent::Said;
use crate::{Place, TextPlace};
use std::error::Error;
use std::fmt::{self, Display, Formatter};

/// What the planner says no with: document 01's table, row by row, and what document 02 adds to it.
/// A place in a manifest's text is a record of the bundle and an offset in bytes, one in the target
/// list an offset; 4, 6 to 10 and 19 tell where the line starts. [`Refusal::located`] tells name,
/// line and column. Later editions refuse with further numbers.
#[derive(Debug, Clone, PartialEq, Eq)]
#[non_exhaustive]
pub enum Refusal {
    /// 1: a lent buffer is too short.
    ShortBuffer,
    /// 2: the manifest's texts have over 49,152 bytes together.
    LongManifest,
    /// 3: a forbidden byte (0, tab, carriage return), or no newline at a text's end; also in a text
    /// that no line opens.
    BadByte(TextPlace),
    /// 4: a line fits no form.
    BadLine(TextPlace),
    /// 5: a bad `$`.
    BadDollar(TextPlace),
    /// 6: a keyword or key that is not yet in this edition.
    NotYet(TextPlace),
    /// 7: an unknown rule, a rule declared twice, a key twice or unknown in a rule, no `command`.
    BadRule(TextPlace),
    /// 8: an empty path, an output made twice, a default that is no earlier output.
    BadPath(TextPlace),
    /// 9: over one of the limits: 512 steps, 1,024 files and so on.
    OverLimit(TextPlace),
    /// 10: the required version is malformed or above 1.5.0.
    BadVersion(TextPlace),
    /// 11: the time card is not sound.
    BadCard,
    /// 12: the target list is malformed, or has a name that the manifest never mentions.
    BadTarget(usize),
    /// 13: steps exist, but no target, no default, and every output is some input.
    NoRoot,
    /// 14: the needed steps have no order. These steps go round in a circle: each has an input that
    /// the next one makes, and the last one that the first makes. The place is their number.
    Circle(Vec<u32>),
    /// 15: a needed source is missing: the file with this number, counted from 0 by first mention.
    MissingSource(usize),
    /// 16: the text of this step, or the name of its depfile, leads back to itself.
    EndlessText(usize),
    /// 17: the text of this step, or the name of its depfile, has over 8,192 bytes.
    LongText(usize),
    /// 18: there is no step of this number, or it is a phony one.
    NoCommand(usize),
    /// 17, of a status line: it has over 8,192 bytes.
    LongLine,
    /// 19, of the bundle: it is malformed.
    BadBundle,
    /// 19, of a line: it opens a file that is not in the bundle, a ninth at a time, or a 65th in all.
    BadOpening(TextPlace),
    /// 20: the header list of this step is malformed, is another step's or goes over a limit; 0 also
    /// where the lent lists are no sound ones.
    BadList(usize),
    /// 21: a `%` of a status format, at this place, that begins no placeholder.
    BadPlaceholder(usize),
    /// A number that this crate does not know, with its place. The library of this crate's edition
    /// never says one (that is proved); one of a later edition may.
    Unknown {
        /// The number told.
        number: usize,
        /// The place told.
        place: Place,
    },
}

impl Refusal {
    /// The refusal that an ask told, whose number is not 0; `list` is the list buffer afterwards.
    pub(crate) fn of(said: Said, list: &[u32]) -> Self {
        match said.place() {
            Place::Number(place) => Refusal::at_number(said.number, place, list),
            Place::Text(place) => Refusal::in_text(said.number, place),
        }
    }

    fn at_number(number: usize, place: usize, list: &[u32]) -> Self {
        match number {
            1 => Refusal::ShortBuffer,
            2 => Refusal::LongManifest,
            11 => Refusal::BadCard,
            12 => Refusal::BadTarget(place),
            13 => Refusal::NoRoot,
            14 => Refusal::Circle(list.iter().copied().take(place).collect()),
            15 => Refusal::MissingSource(place),
            16 => Refusal::EndlessText(place),
            17 => Refusal::LongText(place),
            18 => Refusal::NoCommand(place),
            19 => Refusal::BadBundle,
            20 => Refusal::BadList(place),
            21 => Refusal::BadPlaceholder(place),
            number => Refusal::Unknown { number, place: Place::Number(place) },
        }
    }

    fn in_text(number: usize, place: TextPlace) -> Self {
        match number {
            3 => Refusal::BadByte(place),
            4 => Refusal::BadLine(place),
            5 => Refusal::BadDollar(place),
            6 => Refusal::NotYet(place),
            7 => Refusal::BadRule(place),
            8 => Refusal::BadPath(place),
            9 => Refusal::OverLimit(place),
            10 => Refusal::BadVersion(place),
            19 => Refusal::BadOpening(place),
            number => Refusal::Unknown { number, place: Place::Text(place) },
        }
    }

    /// The refusal of a status line, whose number is not 0.
    pub(crate) fn of_line(said: Said) -> Self {
        match said.number {
            17 => Refusal::LongLine,
            _ => Refusal::of(said, &[]),
        }
    }

    /// The documents' number, 1 to 21 but for [`Unknown`](Refusal::Unknown).
    pub fn number(&self) -> usize {
        match self {
            Refusal::ShortBuffer => 1,
            Refusal::LongManifest => 2,
            Refusal::BadByte(_) => 3,
            Refusal::BadLine(_) => 4,
            Refusal::BadDollar(_) => 5,
            Refusal::NotYet(_) => 6,
            Refusal::BadRule(_) => 7,
            Refusal::BadPath(_) => 8,
            Refusal::OverLimit(_) => 9,
            Refusal::BadVersion(_) => 10,
            Refusal::BadCard => 11,
            Refusal::BadTarget(_) => 12,
            Refusal::NoRoot => 13,
            Refusal::Circle(_) => 14,
            Refusal::MissingSource(_) => 15,
            Refusal::EndlessText(_) => 16,
            Refusal::LongText(_) | Refusal::LongLine => 17,
            Refusal::NoCommand(_) => 18,
            Refusal::BadBundle | Refusal::BadOpening(_) => 19,
            Refusal::BadList(_) => 20,
            Refusal::BadPlaceholder(_) => 21,
            Refusal::Unknown { number, .. } => *number,
        }
    }

    /// The documents' place.
    pub fn place(&self) -> Place {
        match self {
            Refusal::ShortBuffer
            | Refusal::LongManifest
            | Refusal::BadCard
            | Refusal::NoRoot
            | Refusal::BadBundle
            | Refusal::LongLine => Place::Number(0),
            Refusal::Circle(steps) => Place::Number(steps.len()),
            Refusal::BadByte(place)
            | Refusal::BadLine(place)
            | Refusal::BadDollar(place)
            | Refusal::NotYet(place)
            | Refusal::BadRule(place)
            | Refusal::BadPath(place)
            | Refusal::OverLimit(place)
            | Refusal::BadVersion(place)
            | Refusal::BadOpening(place) => Place::Text(*place),
            Refusal::BadTarget(place)
            | Refusal::MissingSource(place)
            | Refusal::EndlessText(place)
            | Refusal::LongText(place)
            | Refusal::NoCommand(place)
            | Refusal::BadList(place)
            | Refusal::BadPlaceholder(place) => Place::Number(*place),
            Refusal::Unknown { place, .. } => *place,
        }
    }
}

/// `refused 4 at 0:17`, as the program writes it, and a sentence behind a colon.
impl Display for Refusal {
    fn fmt(&self, f: &mut Formatter) -> fmt::Result {
        write!(f, "refused {} at {}: ", self.number(), self.place())?;
        match self {
            Refusal::ShortBuffer => write!(f, "a lent buffer is too short"),
            Refusal::LongManifest => {
                write!(f, "the texts of the bundle have over 49,152 bytes together")
            }
            Refusal::BadByte(place) => write!(
                f,
                "{} is a 0, a tab or a carriage return, or the text ends there without a newline",
                Byte(*place)
            ),
            Refusal::BadLine(place) => write!(f, "{} fits no form", Line(*place)),
            Refusal::BadDollar(place) => {
                write!(f, "the `$` that is {} begins nothing that is known", Byte(*place))
            }
            Refusal::NotYet(place) => {
                write!(f, "{} has a keyword or key that is not in this edition", Line(*place))
            }
            Refusal::BadRule(place) => write!(
                f,
                "{} names an unknown rule, declares a rule again, has a key twice or an unknown \
                 one, or begins a rule without a command",
                Line(*place)
            ),
            Refusal::BadPath(place) => write!(
                f,
                "{} has an empty path, an output that is made already, or a default that is no \
                 earlier output",
                Line(*place)
            ),
            Refusal::OverLimit(place) => write!(f, "{} goes over a limit", Line(*place)),
            Refusal::BadVersion(place) => {
                write!(f, "{} requires a version that is malformed or above 1.5.0", Line(*place))
            }
            Refusal::BadCard => write!(f, "the time card is not sound"),
            Refusal::BadTarget(place) => write!(
                f,
                "the target list is malformed, or the manifest never mentions the name at its \
                 byte {place}"
            ),
            Refusal::NoRoot => {
                write!(f, "there is no target and no default, and every output is some input")
            }
            Refusal::Circle(steps) => write!(f, "the needed steps {steps:?} go round in a circle"),
            Refusal::MissingSource(file) => write!(
                f,
                "file {file}, counted from 0 by first mention, is needed and missing, and no step \
                 makes it"
            ),
            Refusal::EndlessText(step) => {
                write!(f, "the text of step {step}, or its depfile's name, leads back to itself")
            }
            Refusal::LongText(step) => {
                write!(f, "the text of step {step}, or its depfile's name, has over 8,192 bytes")
            }
            Refusal::NoCommand(step) => write!(f, "there is no step {step}, or it is phony"),
            Refusal::LongLine => write!(f, "the status line has over 8,192 bytes"),
            Refusal::BadBundle => write!(f, "the bundle is malformed"),
            Refusal::BadOpening(place) => write!(
                f,
                "{} opens a file that is not in the bundle, a ninth at a time, or a 65th in all",
                Line(*place)
            ),
            Refusal::BadList(step) => write!(
                f,
                "the header list of step {step} is malformed, is of another target or goes over a \
                 limit, or the lent lists are malformed"
            ),
            Refusal::BadPlaceholder(place) => {
                write!(f, "the `%` at byte {place} of the format begins no placeholder")
            }
            Refusal::Unknown { .. } => {
                write!(f, "this crate does not know the refusal; the library is another edition's")
            }
        }
    }
}

/// A line of a manifest in words, by the place where it starts.
struct Line(TextPlace);

impl Display for Line {
    fn fmt(&self, f: &mut Formatter) -> fmt::Result {
        write!(f, "the line at byte {} of record {}", self.0.offset, self.0.record)
    }
}

/// A byte of a manifest in words.
struct Byte(TextPlace);

impl Display for Byte {
    fn fmt(&self, f: &mut Formatter) -> fmt::Result {
        write!(f, "byte {} of record {}", self.0.offset, self.0.record)
    }
}

impl Error for Refusal {}

#[cfg(test)]
mod tests {
    use super::*;

    /// Whatever is told, also what the proved library never tells, is a refusal with its number.
    #[test]
    fn any_number() {
        for number in (0..=22).chain([usize::MAX]) {
            for text in [0, 1, 64, 65, usize::MAX] {
                for value in [0, 1, 512, 513, usize::MAX] {
                    is_told(Said { number, text, value });
                }
            }
        }
    }

    fn is_told(said: Said) {
        let refusal = Refusal::of(said, &[7; 512]);
        assert_eq!(refusal.number(), said.number);
        let place = match (said.number, said.text, said.value) {
            (1 | 2 | 11 | 13 | 19, 0, _) => Place::Number(0),
            (14, 0, value) => Place::Number(value.min(512)),
            (_, 0, value) => Place::Number(value),
            (_, text, offset) => Place::Text(TextPlace { record: text - 1, offset }),
        };
        assert_eq!(refusal.place(), place);
        let sentence = refusal.to_string();
        let front = format!("refused {} at {place}: ", said.number);
        assert!(sentence.starts_with(&front) && sentence.len() > front.len() + 20, "{sentence}");
        assert!(sentence.is_ascii() && !sentence.contains('\n') && !sentence.contains("  "));
    }
}
