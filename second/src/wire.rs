//! The plain lines in which tools hand asks and answers on, bytes in hex and `-` for none:
//!
//! - `plan BUNDLE HEADERS CARD TARGETS LISTLEN`, `text BUNDLE STEP command|description BUFLEN`,
//!   `texts BUNDLE command|description BUFLEN ENDSLEN STEP STEP ..`
//! - `list 0 3 1`, `text 6363`, `texts 6363 - 61`, `circle 0 1`, `refused 12 at 17`, and
//!   `refused 4 at 0:17` for an offset in the text of a record

use crate::{Answer, Ask, Lent, Place, Question, Refusal, Wanted};
use std::error;
use std::fmt::{self, Display, Formatter};
use std::str::FromStr;

/// A line, or a part of one, that can't be read.
#[derive(Debug, Clone, PartialEq, Eq)]
pub enum Error {
    /// No ask or answer has this form.
    Form(String),
    /// No number that fits there.
    Number(String),
    /// No bytes in hex.
    Hex(String),
}

impl Display for Error {
    fn fmt(&self, f: &mut Formatter) -> fmt::Result {
        match self {
            Error::Form(line) => write!(f, "`{line}` is no ask or answer"),
            Error::Number(word) => write!(f, "`{word}` is not a number that fits here"),
            Error::Hex(word) => write!(f, "`{word}` is no bytes in hex"),
        }
    }
}

impl error::Error for Error {}

impl Display for Ask {
    fn fmt(&self, f: &mut Formatter) -> fmt::Result {
        let Ask { lent, question } = self;
        match question {
            Question::Plan { list_len } => write!(f, "plan {lent} {list_len}"),
            Question::Text { step, wanted, buf_len } => {
                let bundle = Hex(&lent.bundle);
                write!(f, "text {bundle} {step} {} {buf_len}", wanted.name())
            }
            Question::Texts { steps, wanted, buf_len, ends_len } => {
                let (bundle, wanted, steps) = (Hex(&lent.bundle), wanted.name(), Steps(steps));
                write!(f, "texts {bundle} {wanted} {buf_len} {ends_len}{steps}")
            }
        }
    }
}

impl FromStr for Ask {
    type Err = Error;

    fn from_str(line: &str) -> Result<Self, Error> {
        let words: Vec<&str> = line.split(' ').collect();
        match words[..] {
            ["plan", bundle, headers, card, targets, list_len] => Ok(Ask {
                lent: lent([bundle, headers, card, targets])?,
                question: Question::Plan { list_len: number(list_len)? },
            }),
            ["text", bundle, step, wanted, buf_len] => {
                let wanted = wanted_by(wanted, line)?;
                let (step, buf_len) = (number(step)?, number(buf_len)?);
                let question = Question::Text { step, wanted, buf_len };
                Ok(Ask { lent: Lent::bundle(unhex(bundle)?), question })
            }
            ["texts", bundle, wanted, buf_len, ends_len, ref steps @ ..] => {
                let (wanted, steps) = (wanted_by(wanted, line)?, numbers(steps)?);
                let (buf_len, ends_len) = (number(buf_len)?, number(ends_len)?);
                let question = Question::Texts { steps, wanted, buf_len, ends_len };
                Ok(Ask { lent: Lent::bundle(unhex(bundle)?), question })
            }
            _ => Err(Error::Form(line.to_string())),
        }
    }
}

fn wanted_by(name: &str, line: &str) -> Result<Wanted, Error> {
    Wanted::of(name).ok_or_else(|| Error::Form(line.to_string()))
}

/// Bundle, header lists, card and targets, as a plan's line has them.
impl Display for Lent {
    fn fmt(&self, f: &mut Formatter) -> fmt::Result {
        let Lent { bundle, headers, card, targets } = self;
        write!(f, "{} {} {} {}", Hex(bundle), Hex(headers), Hex(card), Hex(targets))
    }
}

impl FromStr for Lent {
    type Err = Error;

    fn from_str(line: &str) -> Result<Self, Error> {
        let words: Vec<&str> = line.split(' ').collect();
        match words[..] {
            [bundle, headers, card, targets] => lent([bundle, headers, card, targets]),
            _ => Err(Error::Form(line.to_string())),
        }
    }
}

fn lent([bundle, headers, card, targets]: [&str; 4]) -> Result<Lent, Error> {
    let (bundle, headers) = (unhex(bundle)?, unhex(headers)?);
    Ok(Lent { bundle, headers, card: unhex(card)?, targets: unhex(targets)? })
}

impl Display for Answer {
    fn fmt(&self, f: &mut Formatter) -> fmt::Result {
        match self {
            Answer::List(steps) => write!(f, "list{}", Steps(steps)),
            Answer::Text(bytes) => write!(f, "text {}", Hex(bytes)),
            Answer::Texts(texts) => {
                f.write_str("texts")?;
                texts.iter().try_for_each(|text| write!(f, " {}", Hex(text)))
            }
            Answer::Circle(steps) => write!(f, "circle{}", Steps(steps)),
            Answer::Refused(refusal) => refusal.fmt(f),
        }
    }
}

impl FromStr for Answer {
    type Err = Error;

    fn from_str(line: &str) -> Result<Self, Error> {
        let words: Vec<&str> = line.split(' ').collect();
        match &words[..] {
            ["list", steps @ ..] => Ok(Answer::List(numbers(steps)?)),
            ["circle", steps @ ..] => Ok(Answer::Circle(numbers(steps)?)),
            ["text", bytes] => Ok(Answer::Text(unhex(bytes)?)),
            ["texts", texts @ ..] => {
                let texts: Result<_, _> = texts.iter().map(|text| unhex(text)).collect();
                Ok(Answer::Texts(texts?))
            }
            ["refused", refused, "at", place] => {
                Ok(Answer::Refused(Refusal { number: number(refused)?, place: place.parse()? }))
            }
            _ => Err(Error::Form(line.to_string())),
        }
    }
}

impl Display for Refusal {
    fn fmt(&self, f: &mut Formatter) -> fmt::Result {
        write!(f, "refused {} at {}", self.number, self.place)
    }
}

impl Display for Place {
    fn fmt(&self, f: &mut Formatter) -> fmt::Result {
        match self {
            Place::Number(number) => number.fmt(f),
            Place::Text { record, offset } => write!(f, "{record}:{offset}"),
        }
    }
}

impl FromStr for Place {
    type Err = Error;

    fn from_str(word: &str) -> Result<Self, Error> {
        match word.split_once(':') {
            Some((record, offset)) => {
                Ok(Place::Text { record: number(record)?, offset: number(offset)? })
            }
            None => number(word).map(Place::Number),
        }
    }
}

/// Numbers of steps, each after a space.
pub(crate) struct Steps<'a>(pub &'a [u32]);

impl Display for Steps<'_> {
    fn fmt(&self, f: &mut Formatter) -> fmt::Result {
        self.0.iter().try_for_each(|number| write!(f, " {number}"))
    }
}

fn number<T: FromStr>(word: &str) -> Result<T, Error> {
    word.parse().map_err(|_| Error::Number(word.to_string()))
}

fn numbers(words: &[&str]) -> Result<Vec<u32>, Error> {
    words.iter().map(|word| number(word)).collect()
}

/// Bytes in hex, `-` for none.
struct Hex<'a>(&'a [u8]);

impl Display for Hex<'_> {
    fn fmt(&self, f: &mut Formatter) -> fmt::Result {
        if self.0.is_empty() {
            return f.write_str("-");
        }
        self.0.iter().try_for_each(|byte| write!(f, "{byte:02x}"))
    }
}

fn unhex(word: &str) -> Result<Vec<u8>, Error> {
    if word == "-" {
        return Ok(Vec::new());
    }
    let digit = |byte: &u8| char::from(*byte).to_digit(16).map(|digit| digit as u8);
    let byte = |two: &[u8]| Some(digit(two.first()?)? * 16 + digit(two.get(1)?)?);
    let bytes: Option<Vec<u8>> = word.as_bytes().chunks(2).map(byte).collect();
    bytes.filter(|bytes| !bytes.is_empty()).ok_or_else(|| Error::Hex(word.to_string()))
}
