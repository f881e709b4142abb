//! The make-style text that a compiler leaves (document 02, [4]): one rule and blank lines, targets
//! up to the first colon, names between spaces; none where it is malformed.

use crate::limits;
use std::borrow::Cow;

/// The one rule of a text.
#[derive(Debug, Clone, PartialEq, Eq)]
pub struct Rule<'a> {
    /// The first target. The others do not matter, and without one it is the list of no step.
    pub target: Cow<'a, [u8]>,
    pub inputs: Vec<Cow<'a, [u8]>>,
}

/// The rule of a text, with nothing but blank lines before and after it.
pub fn read(text: &[u8]) -> Option<Rule<'_>> {
    let mut scan = Scanner { text, at: 0 };
    scan.blank_lines();
    let target = target(&mut scan)?;
    let inputs = inputs(&mut scan)?;
    scan.blank_lines();
    // what follows would be a second rule, or a line without a colon (reading 02.12)
    (scan.at == text.len()).then_some(Rule { target, inputs })
}

/// The first name up to the first colon, whatever stands beside that (reading 02.13).
fn target<'a>(scan: &mut Scanner<'a>) -> Option<Cow<'a, [u8]>> {
    let mut names = Names::default();
    loop {
        match scan.next()? {
            Token::Colon(_) => return names.all().pop(),
            Token::Space => names.end(),
            // of the other targets nothing is kept
            Token::Bytes(bytes) if names.all.is_empty() => names.push(bytes),
            Token::Bytes(_) => {}
            Token::Newline | Token::LoneDollar => return None,
        }
    }
}

/// The names up to the end of the line; the last newline may be absent. Colons are themselves here.
/// None at all where there are more than may be mentioned: a 20, whatever follows.
fn inputs<'a>(scan: &mut Scanner<'a>) -> Option<Vec<Cow<'a, [u8]>>> {
    let mut names = Names::default();
    while let Some(token) = scan.next() {
        match token {
            Token::Newline => break,
            Token::Space => names.end(),
            Token::Bytes(bytes) | Token::Colon(bytes) => names.push(bytes),
            Token::LoneDollar => return None,
        }
        if names.all.len() > limits::MENTIONS {
            return None;
        }
    }
    Some(names.all())
}

/// What the next bytes of a text are.
enum Token<'a> {
    /// Spaces, a backslash and a newline among them.
    Space,
    Newline,
    /// A `:`, the byte itself.
    Colon(&'a [u8]),
    /// Bytes of a name.
    Bytes(&'a [u8]),
    /// A `$` that no `$` follows, which is malformed.
    LoneDollar,
}

/// A place in a text that moves from token to token.
struct Scanner<'a> {
    text: &'a [u8],
    at: usize,
}

impl<'a> Scanner<'a> {
    /// Passes spaces; tells whether there were any.
    fn spaces(&mut self) -> bool {
        let start = self.at;
        loop {
            match self.text[self.at..] {
                [b' ', ..] => self.at += 1,
                [b'\\', b'\n', ..] => self.at += 2,
                _ => return self.at > start,
            }
        }
    }

    /// Passes lines that are empty or of spaces, and the spaces that begin the next one.
    fn blank_lines(&mut self) {
        self.spaces();
        while self.text.get(self.at) == Some(&b'\n') {
            self.at += 1;
            self.spaces();
        }
    }

    fn next(&mut self) -> Option<Token<'a>> {
        if self.spaces() {
            return Some(Token::Space);
        }
        let rest = &self.text[self.at..];
        // Backslashes are read from the left, each by its next byte (reading 02.13).
        let (token, length) = match *rest {
            [] => return None,
            [b'\n', ..] => (Token::Newline, 1),
            [b':', ..] => (Token::Colon(&rest[..1]), 1),
            [b'\\', b' ' | b'#', ..] => (Token::Bytes(&rest[1..2]), 2),
            [b'\\', ..] => (Token::Bytes(&rest[..1]), 1),
            [b'$', b'$', ..] => (Token::Bytes(&rest[1..2]), 2),
            [b'$', ..] => (Token::LoneDollar, 1),
            _ => {
                let plain = rest.iter().position(|&byte| is_special(byte)).unwrap_or(rest.len());
                (Token::Bytes(&rest[..plain]), plain)
            }
        };
        self.at += length;
        Some(token)
    }
}

/// Other bytes are themselves, a tab, a carriage return, a 0 and a `#` among them.
fn is_special(byte: u8) -> bool {
    matches!(byte, b' ' | b'\n' | b':' | b'\\' | b'$')
}

/// The names read so far, and the one under way, if there is one.
#[derive(Default)]
struct Names<'a> {
    all: Vec<Cow<'a, [u8]>>,
    open: Option<Cow<'a, [u8]>>,
}

impl<'a> Names<'a> {
    fn push(&mut self, bytes: &'a [u8]) {
        match &mut self.open {
            Some(name) => name.to_mut().extend_from_slice(bytes),
            None => self.open = Some(Cow::Borrowed(bytes)),
        }
    }

    fn end(&mut self) {
        self.all.extend(self.open.take());
    }

    fn all(mut self) -> Vec<Cow<'a, [u8]>> {
        self.end();
        self.all
    }
}
