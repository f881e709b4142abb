//! A lent bundle (request [1] of document 02, and [4]): the card's layout with, for the time, where
//! a text lies. All offsets follow from the lengths, so a bundle is sound exactly when its lengths
//! keep the rules and writing its names and texts anew gives the same bytes.

use crate::limits::{self, PATH};
use crate::Refusal;
use std::collections::HashSet;

/// How many records a manifest's bundle has: "1 to 64 records".
pub const MANIFEST: (usize, usize) = (1, limits::NAMES);

/// How many header lists have: "0 to 512 by path".
pub const HEADERS: (usize, usize) = (0, limits::HEADERS);

/// The records of a sound bundle, each a name and its text.
#[derive(Debug, PartialEq, Eq)]
pub struct Bundle<'a> {
    pub records: Vec<(&'a [u8], &'a [u8])>,
}

impl<'a> Bundle<'a> {
    /// The bundle in these bytes, which is to have `least` to `most` records; none if malformed.
    pub fn read(bytes: &'a [u8], (least, most): (usize, usize)) -> Option<Self> {
        let count = number(bytes, 0)?;
        if count < least || count > most {
            return None;
        }
        let table = bytes.get(16..16 + 16 * count)?;
        let mut rest = &bytes[16 + 16 * count..];
        let mut cut = |row: &[u8], at: usize| {
            let (piece, behind) = rest.split_at_checked(number(row, at)?)?;
            rest = behind;
            Some(piece)
        };
        let names: Option<Vec<&[u8]>> = table.chunks_exact(16).map(|row| cut(row, 4)).collect();
        let texts: Option<Vec<&[u8]>> = table.chunks_exact(16).map(|row| cut(row, 12)).collect();
        let records: Vec<(&[u8], &[u8])> = names?.into_iter().zip(texts?).collect();
        let mut seen = HashSet::new();
        let named =
            records.iter().all(|(name, _)| (1..=PATH).contains(&name.len()) && seen.insert(*name));
        (named && write(&records) == bytes).then_some(Bundle { records })
    }

    /// The number of the record of this name.
    pub fn find(&self, path: &[u8]) -> Option<usize> {
        self.records.iter().position(|(name, _)| *name == path)
    }

    /// Where text k begins when all texts are laid end to end with one place between two.
    pub fn base(&self, k: usize) -> usize {
        self.records[..k].iter().map(|(_, text)| text.len() + 1).sum()
    }
}

/// The name under which a manifest is lent alone, as the program does it.
pub const ALONE: &[u8] = b"build.ninja";

/// A text of a manifest's bundle with its name.
#[derive(Debug, Clone, Copy, PartialEq, Eq)]
pub struct Record<'a> {
    pub name: &'a [u8],
    pub text: &'a [u8],
}

/// The records of a manifest's bundle, in order; a malformed one is 19 at place 0.
pub fn read(bytes: &[u8]) -> Result<Vec<Record<'_>>, Refusal> {
    let bundle = Bundle::read(bytes, MANIFEST).ok_or(Refusal::new(19, 0))?;
    Ok(bundle.records.into_iter().map(|(name, text)| Record { name, text }).collect())
}

/// The number of the record with this name; names are compared byte for byte.
pub fn find(records: &[Record], name: &[u8]) -> Option<usize> {
    records.iter().position(|record| record.name == name)
}

/// The bundle of one text under the name `build.ninja`.
pub fn alone(text: &[u8]) -> Vec<u8> {
    write(&[(ALONE, text)])
}

/// The text of a sound bundle that has nothing but a `build.ninja`.
pub fn text_alone(bytes: &[u8]) -> Option<&[u8]> {
    match read(bytes).ok()?[..] {
        [Record { name: ALONE, text }] => Some(text),
        _ => None,
    }
}

/// The little-endian number of 4 bytes at `at`.
fn number(bytes: &[u8], at: usize) -> Option<usize> {
    let four = bytes.get(at..at + 4)?.try_into().ok()?;
    usize::try_from(u32::from_le_bytes(four)).ok()
}

/// The bytes of the bundle with these names and texts.
pub fn write(records: &[(&[u8], &[u8])]) -> Vec<u8> {
    let names_at = 16 + 16 * records.len();
    let names: usize = records.iter().map(|(name, _)| name.len()).sum();
    let texts: usize = records.iter().map(|(_, text)| text.len()).sum();
    let mut numbers = vec![records.len(), 16, names_at, names_at + names + texts];
    let (mut name_at, mut text_at) = (0, names);
    for (name, text) in records {
        numbers.extend([name_at, name.len(), text_at, text.len()]);
        name_at += name.len();
        text_at += text.len();
    }
    let mut bytes: Vec<u8> =
        numbers.into_iter().flat_map(|number| (number as u32).to_le_bytes()).collect();
    records.iter().for_each(|(name, _)| bytes.extend_from_slice(name));
    records.iter().for_each(|(_, text)| bytes.extend_from_slice(text));
    bytes
}

#[cfg(test)]
mod tests {
    use super::*;

    fn bytes(numbers: &[u32], tail: &[u8]) -> Vec<u8> {
        let mut bytes: Vec<u8> = numbers.iter().flat_map(|number| number.to_le_bytes()).collect();
        bytes.extend_from_slice(tail);
        bytes
    }

    fn sound(bytes: &[u8]) -> bool {
        Bundle::read(bytes, MANIFEST).is_some()
    }

    /// One record: a name of one byte, then a text of three, which starts where the name ends.
    #[test]
    fn one_record() {
        let one = bytes(&[1, 16, 32, 36, 0, 1, 1, 3], b"ax y");
        assert_eq!(one, write(&[(b"a", b"x y")]));
        let bundle = Bundle::read(&one, MANIFEST).unwrap();
        assert_eq!(bundle.records, [(&b"a"[..], &b"x y"[..])]);
        assert_eq!((bundle.find(b"a"), bundle.find(b"b")), (Some(0), None));
    }

    /// Names in any order; a text of no bytes; both texts behind both names.
    #[test]
    fn two_records() {
        let two = bytes(&[2, 16, 48, 55, 0, 2, 3, 4, 2, 1, 7, 0], b"bcatext");
        let bundle = Bundle::read(&two, MANIFEST).unwrap();
        assert_eq!(bundle.records, [(&b"bc"[..], &b"text"[..]), (b"a", b"")]);
        assert_eq!((bundle.find(b"a"), bundle.base(0), bundle.base(1)), (Some(1), 0, 5));
    }

    #[test]
    fn malformed() {
        // a gap before the text, a byte left over, a text that begins in the name
        assert!(!sound(&bytes(&[1, 16, 32, 37, 0, 1, 2, 3], b"a-x y")));
        assert!(!sound(&bytes(&[1, 16, 32, 37, 0, 1, 1, 3], b"ax y-")));
        assert!(!sound(&bytes(&[1, 16, 32, 35, 0, 1, 0, 3], b"a y")));
        // an offset counted from the texts, a name twice, one of no bytes
        assert!(!sound(&bytes(&[1, 16, 32, 36, 0, 1, 0, 3], b"ax y")));
        assert!(!sound(&bytes(&[2, 16, 48, 52, 0, 1, 2, 1, 1, 1, 3, 1], b"aaxy")));
        assert!(!sound(&bytes(&[1, 16, 32, 35, 0, 0, 0, 3], b"x y")));
        // a total length that is not the byte count, no bytes at all
        assert!(!sound(&bytes(&[1, 16, 32, 35, 0, 1, 1, 3], b"ax y")));
        assert!(!sound(b""));
    }

    #[test]
    fn counts() {
        let none = bytes(&[0, 16, 16, 16], b"");
        assert!(!sound(&none) && Bundle::read(&none, HEADERS).is_some());
        let names: Vec<String> = (0..513).map(|k| format!("f{k}")).collect();
        let records: Vec<(&[u8], &[u8])> =
            names.iter().map(|name| (name.as_bytes(), &b"t"[..])).collect();
        assert!(sound(&write(&records[..64])) && !sound(&write(&records[..65])));
        assert!(Bundle::read(&write(&records[..512]), HEADERS).is_some());
        assert!(Bundle::read(&write(&records), HEADERS).is_none());
    }

    #[test]
    fn names_of_255_bytes() {
        let long = [b'n'; 256];
        assert!(sound(&write(&[(&long[..255], b"")])) && !sound(&write(&[(&long[..], b"")])));
    }

    #[test]
    fn what_is_written_is_read() {
        let records: &[(&[u8], &[u8])] = &[(b"b", b"x\n"), (b"a", b""), (b"ab", b"\0\n")];
        let bundle = write(records);
        let read = read(&bundle).unwrap();
        let read: Vec<_> = read.iter().map(|record| (record.name, record.text)).collect();
        assert_eq!(read, records);
        assert_eq!(text_alone(&bundle), None);
        assert_eq!(text_alone(&alone(b"x\n")), Some(&b"x\n"[..]));
    }

    /// Every byte of the header and of the records counts: another one there is no sound bundle.
    #[test]
    fn any_other_number_is_malformed() {
        let sound = write(&[(b"b", b"x\n"), (b"a", b""), (b"ab", b"yy\n")]);
        for at in 0..16 + 3 * 16 {
            for change in 1..=255 {
                let mut other = sound.clone();
                other[at] ^= change;
                assert_eq!(read(&other), Err(Refusal::new(19, 0)), "{at} {change}");
            }
        }
        for length in 0..sound.len() {
            assert_eq!(read(&sound[..length]), Err(Refusal::new(19, 0)), "{length}");
        }
        assert!(read(&[&sound[..], b"\n"].concat()).is_err());
    }
}
