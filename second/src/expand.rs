//! Expansion of a raw path or value, cut beforehand, by a lookup of names.

use crate::scan::{dollar, Dollar};
use std::borrow::Cow;

/// A part of a raw path or value: bytes as they are, or a name to look up.
#[derive(Debug, Clone, Copy, PartialEq, Eq)]
pub enum Piece<'a> {
    Bytes(&'a [u8]),
    Name(&'a [u8]),
}

/// The pieces of raw bytes whose dollars have been found sound; joins leave none.
pub struct Pieces<'a> {
    raw: &'a [u8],
    at: usize,
}

pub fn pieces(raw: &[u8]) -> Pieces<'_> {
    Pieces { raw, at: 0 }
}

impl<'a> Iterator for Pieces<'a> {
    type Item = Piece<'a>;

    fn next(&mut self) -> Option<Piece<'a>> {
        while self.raw.get(self.at) == Some(&b'$') {
            let (meaning, next) = dollar(self.raw, self.at).expect("dollars are checked when cut");
            self.at = next;
            match meaning {
                Dollar::Byte(byte) => return Some(Piece::Bytes(byte)),
                Dollar::Name(name) => return Some(Piece::Name(name)),
                Dollar::Join => {}
            }
        }
        let rest = &self.raw[self.at..];
        let plain = &rest[..rest.iter().position(|&b| b == b'$').unwrap_or(rest.len())];
        self.at += plain.len();
        (!plain.is_empty()).then_some(Piece::Bytes(plain))
    }
}

/// Expands raw bytes; those without a dollar stay the caller's own. However often a raw part of
/// the manifest names a value, the result is below 49,152 / 2 times 2,048 bytes.
pub fn expand<'a, 'v>(raw: &'a [u8], lookup: impl Fn(&[u8]) -> &'v [u8]) -> Cow<'a, [u8]> {
    if !raw.contains(&b'$') {
        return Cow::Borrowed(raw);
    }
    let mut expanded = Vec::new();
    for piece in pieces(raw) {
        expanded.extend_from_slice(match piece {
            Piece::Bytes(bytes) => bytes,
            Piece::Name(name) => lookup(name),
        });
    }
    Cow::Owned(expanded)
}
