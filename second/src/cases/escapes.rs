//! The backslashes of a text in a case file: bytes, the mark of a place, and repeated texts.

use super::{number, Fault};
use std::ops::Range;

/// A text of a case file with its backslashes read.
#[derive(Default)]
pub struct Expanded {
    pub bytes: Vec<u8>,
    /// For each byte whether it was written without a backslash: only such ones part words.
    plain: Vec<bool>,
    /// Where the `\@` stands.
    pub mark: Option<usize>,
}

impl Expanded {
    fn push(&mut self, byte: u8, plain: bool) {
        self.bytes.push(byte);
        self.plain.push(plain);
    }

    fn is_plain(&self, at: usize, byte: u8) -> bool {
        self.bytes[at] == byte && self.plain[at]
    }

    /// The words between plain separators, without plain spaces around them; no empty ones.
    pub fn words(&self, separator: u8) -> Vec<&[u8]> {
        let mut words = Vec::new();
        let mut from = 0;
        for to in 0..=self.bytes.len() {
            if to == self.bytes.len() || self.is_plain(to, separator) {
                words.extend(self.trimmed(from..to));
                from = to + 1;
            }
        }
        words
    }

    /// The texts that a plain separator ends, as they are; none if something has no end.
    pub fn ended(&self, separator: u8) -> Option<Vec<&[u8]>> {
        let ends = (0..self.bytes.len()).filter(|&at| self.is_plain(at, separator));
        let mut from = 0;
        let mut texts = Vec::new();
        for end in ends {
            texts.push(&self.bytes[from..end]);
            from = end + 1;
        }
        (from == self.bytes.len()).then_some(texts)
    }

    /// The bytes of a range without plain spaces around them, if any are left.
    fn trimmed(&self, mut range: Range<usize>) -> Option<&[u8]> {
        let no_space = |at: &usize| !self.is_plain(*at, b' ');
        let start = range.clone().find(no_space)?;
        let last = range.rfind(no_space)?;
        Some(&self.bytes[start..=last])
    }
}

/// A text with its backslashes read.
pub fn expand(source: &str) -> Result<Expanded, Fault> {
    let mut reader = Reader { source: source.as_bytes(), at: 0, out: Expanded::default() };
    while reader.at < reader.source.len() {
        reader.next(None)?;
    }
    Ok(reader.out)
}

/// A text being read, and what it has given so far.
struct Reader<'a> {
    source: &'a [u8],
    at: usize,
    out: Expanded,
}

impl Reader<'_> {
    fn take(&mut self) -> Option<u8> {
        let byte = self.source.get(self.at).copied();
        self.at += 1;
        byte
    }

    /// Reads a byte or a backslash with what it begins; within a repeated text `index` is its
    /// number.
    fn next(&mut self, index: Option<usize>) -> Result<(), Fault> {
        match self.take() {
            Some(b'\\') => self.escape(index),
            Some(byte) => {
                self.out.push(byte, true);
                Ok(())
            }
            None => Err(Fault::Unclosed),
        }
    }

    fn escape(&mut self, index: Option<usize>) -> Result<(), Fault> {
        match self.take() {
            Some(b'n') => self.out.push(b'\n', false),
            Some(b'r') => self.out.push(b'\r', false),
            Some(b't') => self.out.push(b'\t', false),
            Some(b'0') => self.out.push(0, false),
            Some(b's') => self.out.push(b' ', false),
            Some(literal @ (b'\\' | b'}' | b',')) => self.out.push(literal, false),
            Some(b'x') => self.hex()?,
            Some(b'@') => self.mark()?,
            Some(b'i') => self.shown(&in_repeated(index)?.to_string()),
            Some(b'j') => self.shown(&base_36(in_repeated(index)?)?),
            Some(b'{') => self.repeated()?,
            _ => return Err(Fault::UnknownEscape),
        }
        Ok(())
    }

    fn hex(&mut self) -> Result<(), Fault> {
        let digits = self.source.get(self.at..self.at + 2);
        let digits = digits.and_then(|digits| std::str::from_utf8(digits).ok());
        let byte = digits.and_then(|digits| u8::from_str_radix(digits, 16).ok());
        self.out.push(byte.ok_or(Fault::NoHexDigits)?, false);
        self.at += 2;
        Ok(())
    }

    fn mark(&mut self) -> Result<(), Fault> {
        match self.out.mark.replace(self.out.bytes.len()) {
            Some(_) => Err(Fault::Second("\\@")),
            None => Ok(()),
        }
    }

    /// An index as it is shown: as if it were written there.
    fn shown(&mut self, index: &str) {
        index.bytes().for_each(|byte| self.out.push(byte, true));
    }

    /// Reads `COUNT TEXT}`.
    fn repeated(&mut self) -> Result<(), Fault> {
        let rest = self.source.get(self.at..).unwrap_or_default();
        let digits = rest.iter().take_while(|byte| byte.is_ascii_digit()).count();
        let times: usize = number(&String::from_utf8_lossy(&rest[..digits]))?;
        if times == 0 || rest.get(digits) != Some(&b' ') {
            return Err(Fault::Expected("`\\{COUNT TEXT}` with a count from 1"));
        }
        let body = self.at + digits + 1;
        for index in 0..times {
            self.at = body;
            while self.source.get(self.at) != Some(&b'}') {
                self.next(Some(index))?;
            }
            self.at += 1;
        }
        Ok(())
    }
}

fn in_repeated(index: Option<usize>) -> Result<usize, Fault> {
    index.ok_or(Fault::StrayIndex)
}

fn base_36(index: usize) -> Result<String, Fault> {
    const DIGITS: &[u8; 36] = b"0123456789abcdefghijklmnopqrstuvwxyz";
    if index >= 36 * 36 {
        return Err(Fault::LongIndex(index));
    }
    Ok([index / 36, index % 36].iter().map(|&digit| DIGITS[digit] as char).collect())
}
