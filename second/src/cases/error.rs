//! What can be wrong with case files, and where.

use crate::Refusal;
use std::error;
use std::fmt::{self, Display, Formatter};
use std::io;
use std::path::PathBuf;

/// A line of a case file, counted from 1.
#[derive(Debug, Clone, PartialEq, Eq)]
pub struct Origin {
    pub file: String,
    pub line: usize,
}

impl Display for Origin {
    fn fmt(&self, f: &mut Formatter) -> fmt::Result {
        write!(f, "{}:{}", self.file, self.line)
    }
}

/// Why case files can't be read.
#[derive(Debug)]
pub enum Error {
    /// A file or folder can't be opened.
    Unreadable(PathBuf, io::Error),
    /// A line breaks the format.
    Line(Origin, Fault),
    /// The case that begins there lacks something.
    Incomplete { origin: Origin, name: String, missing: &'static str },
    /// Two cases have one name.
    NameTaken { origin: Origin, name: String, by: Origin },
}

impl Display for Error {
    fn fmt(&self, f: &mut Formatter) -> fmt::Result {
        match self {
            Error::Unreadable(path, error) => write!(f, "{}: {error}", path.display()),
            Error::Line(origin, fault) => write!(f, "{origin}: {fault}"),
            Error::Incomplete { origin, name, missing } => {
                write!(f, "{origin}: the case {name} has no {missing}")
            }
            Error::NameTaken { origin, name, by } => {
                write!(f, "{origin}: the name {name} is taken at {by}")
            }
        }
    }
}

impl error::Error for Error {
    fn source(&self) -> Option<&(dyn error::Error + 'static)> {
        match self {
            Error::Unreadable(_, error) => Some(error),
            Error::Line(_, fault) => Some(fault),
            Error::Incomplete { .. } | Error::NameTaken { .. } => None,
        }
    }
}

/// What is wrong with a line.
#[derive(Debug, Clone, PartialEq, Eq)]
pub enum Fault {
    SpacesAtEnd,
    /// `case` without a name, or with one of several words.
    CaseName,
    BeforeFirstCase,
    UnknownWord(String),
    /// A word with nothing after it.
    Empty(String),
    /// What a case may have once.
    Second(&'static str),
    /// Something else where this has to stand.
    Expected(&'static str),
    /// No number, or one that does not fit.
    Number(String),
    /// `manifest of` a case that is not there.
    NoEarlierCase(String),
    /// `|` or `+` with nothing open that is given piece by piece.
    StrayPiece,
    /// `at @` without a `\@` before it.
    NoMark,
    EmptyCircle,
    /// A place that no refusal of this number has.
    Place(Refusal),
    /// `\@` in a header list.
    MarkInList,
    /// Behind the last byte of the bundle.
    Beyond(usize),
    /// A number of a card or a bundle with another width than 1, 4 or 8 bytes.
    Width(usize),
    TooWide {
        value: u64,
        width: usize,
    },
    UnknownEscape,
    NoHexDigits,
    /// `\i` or `\j` outside a repeated text.
    StrayIndex,
    /// `\j` of a number with over two digits.
    LongIndex(usize),
    /// `\{` without its `}`.
    Unclosed,
}

impl Display for Fault {
    fn fmt(&self, f: &mut Formatter) -> fmt::Result {
        match self {
            Fault::SpacesAtEnd => f.write_str("spaces at the end of a line; write \\s"),
            Fault::CaseName => f.write_str("a case has a name of one word"),
            Fault::BeforeFirstCase => f.write_str("before the first `case`"),
            Fault::UnknownWord(word) => write!(f, "unknown word `{word}`"),
            Fault::Empty(word) => write!(f, "an empty `{word}`"),
            Fault::Second(what) => write!(f, "a second `{what}`"),
            Fault::Expected(what) => write!(f, "expected {what}"),
            Fault::Number(word) => write!(f, "`{word}` is not a number that fits here"),
            Fault::NoEarlierCase(name) => write!(f, "no earlier case {name} in this file"),
            Fault::StrayPiece => {
                f.write_str("a piece outside `manifest`, `file`, `depfile` and `prints`")
            }
            Fault::NoMark => f.write_str("no `\\@` before this line"),
            Fault::EmptyCircle => f.write_str("a circle has one step at least"),
            Fault::Place(refusal) => write!(f, "`{refusal}` is at no place that it can have"),
            Fault::MarkInList => f.write_str("no refusal has its place in a header list"),
            Fault::Beyond(at) => write!(f, "{at} is beyond the bundle's bytes"),
            Fault::Width(width) => write!(f, "a number has 1, 4 or 8 bytes, not {width}"),
            Fault::TooWide { value, width } => write!(f, "{value} does not fit into {width} bytes"),
            Fault::UnknownEscape => f.write_str("an unknown `\\`"),
            Fault::NoHexDigits => f.write_str("`\\x` without two hex digits"),
            Fault::StrayIndex => f.write_str("an index outside a repeated text"),
            Fault::LongIndex(index) => write!(f, "`\\j` of {index} has over two digits"),
            Fault::Unclosed => f.write_str("a `\\{` without its `}`"),
        }
    }
}

impl error::Error for Fault {}
