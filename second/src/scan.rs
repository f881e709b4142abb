//! The scanner: tokens of one line (names, paths, values), the gaps between them, and dollars.

use crate::bytes::{class, Class};

/// Why a line can't be cut.
#[derive(Debug, Clone, Copy, PartialEq, Eq)]
pub enum Fault {
    /// It fits no form: refusal 4.
    Form,
    /// A bad `$` at this place: refusal 5.
    Dollar(usize),
    /// A keyword or key that is not yet in this edition: refusal 6.
    NotYet,
}

/// What a sound `$` stands for.
#[derive(Debug, Clone, Copy, PartialEq, Eq)]
pub enum Dollar<'a> {
    /// `$$`, `$ ` or `$:`: the second byte itself.
    Byte(&'a [u8]),
    /// `$name` or `${name}`.
    Name(&'a [u8]),
    /// `$` before a newline, with the next line's leading spaces.
    Join,
}

/// Reads the `$` at `at`: what it stands for and the place after it, or nothing if it is bad.
pub fn dollar(bytes: &[u8], at: usize) -> Option<(Dollar<'_>, usize)> {
    let next = at + 1;
    match class(*bytes.get(next)?) {
        Class::Dollar | Class::Space | Class::Colon => {
            Some((Dollar::Byte(&bytes[next..=next]), next + 1))
        }
        Class::Newline => Some((Dollar::Join, run(bytes, next + 1, |c| c == Class::Space))),
        Class::Short => {
            let end = run(bytes, next, |c| c == Class::Short);
            Some((Dollar::Name(&bytes[next..end]), end))
        }
        Class::Open => {
            let end = run(bytes, next + 1, Class::in_name);
            let closed = end > next + 1 && bytes.get(end) == Some(&b'}');
            closed.then(|| (Dollar::Name(&bytes[next + 1..end]), end + 1))
        }
        _ => None,
    }
}

/// The end of the longest run of bytes from `at` whose class is wanted.
fn run(bytes: &[u8], at: usize, wanted: impl Fn(Class) -> bool) -> usize {
    let rest = &bytes[at..];
    at + rest.iter().position(|&b| !wanted(class(b))).unwrap_or(rest.len())
}

/// A place in the manifest that moves from token to token.
pub struct Scanner<'a> {
    bytes: &'a [u8],
    at: usize,
}

impl<'a> Scanner<'a> {
    pub fn new(bytes: &'a [u8], at: usize) -> Self {
        Scanner { bytes, at }
    }

    /// The place reached.
    pub fn at(&self) -> usize {
        self.at
    }

    /// The class of the next byte; none where the manifest ends inside a joined line.
    pub fn peek(&self) -> Option<Class> {
        self.bytes.get(self.at).map(|&b| class(b))
    }

    /// Whether these bytes come next.
    pub fn sees(&self, wanted: &[u8]) -> bool {
        self.bytes[self.at..].starts_with(wanted)
    }

    /// Passes these bytes if they come next.
    pub fn take(&mut self, wanted: &[u8]) -> bool {
        let next = self.sees(wanted);
        if next {
            self.at += wanted.len();
        }
        next
    }

    /// Passes spaces.
    pub fn spaces(&mut self) {
        self.at = run(self.bytes, self.at, |c| c == Class::Space);
    }

    /// Passes the spaces and joins between two tokens, or after the last (reading 2).
    pub fn gap(&mut self) {
        self.spaces();
        while self.take(b"$\n") {
            self.spaces();
        }
    }

    /// The longest run of name bytes; it ends at a join too (reading 1). Without any, no form fits.
    pub fn name(&mut self) -> Result<&'a [u8], Fault> {
        let end = run(self.bytes, self.at, Class::in_name);
        let name = &self.bytes[self.at..end];
        self.at = end;
        if name.is_empty() {
            Err(Fault::Form)
        } else {
            Ok(name)
        }
    }

    /// A raw path: an unescaped space, `:`, `|` or newline ends it; joins are within it.
    pub fn path(&mut self) -> Result<&'a [u8], Fault> {
        self.raw(|c| matches!(c, Class::Space | Class::Colon | Class::Pipe | Class::Newline))
    }

    /// A raw value, from its first non-space byte (or join, reading 18) to the newline.
    pub fn value(&mut self) -> Result<&'a [u8], Fault> {
        self.spaces();
        self.raw(|c| c == Class::Newline)
    }

    /// Bytes and sound dollars up to the first byte that ends them, or the end of the manifest.
    fn raw(&mut self, ends: impl Fn(Class) -> bool) -> Result<&'a [u8], Fault> {
        let start = self.at;
        while let Some(next) = self.peek().filter(|&c| !ends(c)) {
            self.at = match next {
                Class::Dollar => dollar(self.bytes, self.at).ok_or(Fault::Dollar(self.at))?.1,
                _ => self.at + 1,
            };
        }
        Ok(&self.bytes[start..self.at])
    }

    /// Passes the newline that ends the line; anything else, or the manifest's end, fits no form.
    pub fn end(&mut self) -> Result<(), Fault> {
        if self.take(b"\n") {
            Ok(())
        } else {
            Err(Fault::Form)
        }
    }
}
