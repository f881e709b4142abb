//! Places of refusals, and the name, line and column that one in a manifest's text has.

use crate::{Bundle, Refusal};
use std::error::Error;
use std::fmt::{self, Display, Formatter};

/// A place in the text of a file of the bundle, printed as `0:17`.
#[derive(Debug, Clone, Copy, PartialEq, Eq)]
pub struct TextPlace {
    /// The number of the file's record, counted from 0 as the files were added.
    pub record: usize,
    /// The offset in its text, in bytes.
    pub offset: usize,
}

impl Display for TextPlace {
    fn fmt(&self, f: &mut Formatter) -> fmt::Result {
        write!(f, "{}:{}", self.record, self.offset)
    }
}

/// Where a refusal is, as the documents say it.
#[derive(Debug, Clone, Copy, PartialEq, Eq)]
pub enum Place {
    /// A number by itself: a step, a file, a length, an offset in the target list or in a format, or
    /// 0 where there is no other place.
    Number(usize),
    /// A place in a manifest's text.
    Text(TextPlace),
}

impl Display for Place {
    fn fmt(&self, f: &mut Formatter) -> fmt::Result {
        match self {
            Place::Number(number) => number.fmt(f),
            Place::Text(place) => place.fmt(f),
        }
    }
}

/// What stands at a place of a text: the file's name, and line and column, counted from 1 in lines
/// and bytes.
#[derive(Debug, Clone, Copy, PartialEq, Eq)]
pub struct Location<'a> {
    /// The name of the file.
    pub name: &'a [u8],
    /// The line, counted from 1.
    pub line: usize,
    /// The byte of the line, counted from 1.
    pub column: usize,
}

impl<'a> Location<'a> {
    /// Where this place is in the bundle; nothing if it has no such place.
    pub fn of(place: TextPlace, bundle: &'a Bundle) -> Option<Self> {
        let (name, text) = bundle.file(place.record)?;
        let before = text.get(..place.offset)?;
        let line = 1 + before.iter().filter(|&&byte| byte == b'\n').count();
        let column = 1 + before.iter().rev().take_while(|&&byte| byte != b'\n').count();
        Some(Location { name, line, column })
    }
}

/// `rules.ninja:3:1`, as other tools print it; bytes of the name that are no printable ASCII are
/// escaped.
impl Display for Location<'_> {
    fn fmt(&self, f: &mut Formatter) -> fmt::Result {
        write!(f, "{}:{}:{}", self.name.escape_ascii(), self.line, self.column)
    }
}

/// A refusal with the name, line and column of its place, if that is one in a manifest's text: see
/// [`Refusal::located`].
#[derive(Debug, Clone, PartialEq, Eq)]
pub struct Located<'a> {
    refusal: &'a Refusal,
    location: Option<Location<'a>>,
}

impl<'a> Located<'a> {
    /// The refusal.
    pub fn refusal(&self) -> &'a Refusal {
        self.refusal
    }

    /// Where it is; nothing if its place is none in a text.
    pub fn location(&self) -> Option<Location<'a>> {
        self.location
    }
}

/// `rules.ninja:3:1: refused 4 at 1:17: ..`, or the refusal alone.
impl Display for Located<'_> {
    fn fmt(&self, f: &mut Formatter) -> fmt::Result {
        if let Some(location) = self.location {
            write!(f, "{location}: ")?;
        }
        self.refusal.fmt(f)
    }
}

impl Error for Located<'_> {}

impl Refusal {
    /// The refusal with the name, line and column of its place in the bundle that was asked about.
    ///
    /// ```
    /// use kestrenyo::{text, Bundle, Wanted};
    ///
    /// let mut bundle = Bundle::alone(b"include rules.ninja\n");
    /// bundle.add("rules.ninja", b"rule cc\n  command = cc\npool link\n")?;
    /// let refusal = text(&bundle, 0, Wanted::Command).unwrap_err();
    /// assert!(refusal.to_string().starts_with("refused 6 at 1:23: "));
    /// assert!(refusal.located(&bundle).to_string().starts_with("rules.ninja:3:1: refused 6 at "));
    /// # Ok::<(), Box<dyn std::error::Error>>(())
    /// ```
    pub fn located<'a>(&'a self, bundle: &'a Bundle) -> Located<'a> {
        let location = match self.place() {
            Place::Number(_) => None,
            Place::Text(place) => Location::of(place, bundle),
        };
        Located { refusal: self, location }
    }
}

#[cfg(test)]
mod tests {
    use super::*;

    #[test]
    fn lines_and_columns() {
        let mut bundle = Bundle::alone(b"a\n\nbc\n");
        bundle.add(b"x\n\xff", b"").unwrap();
        let at = |record, offset| {
            let location = Location::of(TextPlace { record, offset }, &bundle);
            location.map(|location| location.to_string())
        };
        for (offset, right) in [(0, "1:1"), (1, "1:2"), (2, "2:1"), (3, "3:1"), (5, "3:3")] {
            assert_eq!(at(0, offset), Some(format!("build.ninja:{right}")));
        }
        // the end is a place too, where a newline is missing
        assert_eq!(at(0, 6), Some("build.ninja:4:1".to_string()));
        assert_eq!(at(1, 0), Some(r"x\n\xff:1:1".to_string()));
        assert_eq!([at(0, 7), at(1, 1), at(2, 0), at(usize::MAX, usize::MAX)], [const { None }; 4]);
    }

    #[test]
    fn refusals_in_a_text_and_others() {
        let bundle = Bundle::alone(b"\nx\n");
        let line = Refusal::BadLine(TextPlace { record: 0, offset: 1 });
        let located = line.located(&bundle);
        assert_eq!(located.location().map(|at| (at.line, at.column)), Some((2, 1)));
        assert_eq!(located.to_string(), format!("build.ninja:2:1: {line}"));
        assert_eq!(located.refusal(), &line);
        let other = Refusal::MissingSource(7);
        assert_eq!(other.located(&bundle).to_string(), other.to_string());
        assert_eq!(other.located(&bundle).location(), None);
    }
}
