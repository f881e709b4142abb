//! Time cards: document 01's layout, written.

use std::error::Error;
use std::fmt::{self, Display, Formatter};

/// The most files of a card, the most bytes of one, the most bytes of a name, the latest time.
const FILES: usize = 1_024;
const BYTES: usize = 49_152;
const NAME: usize = 255;
const LATEST: u64 = i64::MAX as u64;

/// The bytes of the header and of each record.
const HEADER: usize = 16;
const RECORD: usize = 16;

/// Why there is no card of these files.
#[derive(Debug, Clone, PartialEq, Eq)]
#[non_exhaustive]
pub enum CardError {
    /// A name has no byte.
    EmptyName,
    /// This name has over 255 bytes.
    LongName(Vec<u8>),
    /// This name is there twice.
    SameName(Vec<u8>),
    /// This time, of the file of this name, is not from 1 to 2^63 - 1.
    BadTime {
        /// The file's name.
        name: Vec<u8>,
        /// The time given.
        time: u64,
    },
    /// There are so many files, over 1,024.
    ManyFiles(usize),
    /// The card would have so many bytes, over 49,152.
    LongCard(usize),
}

impl Display for CardError {
    fn fmt(&self, f: &mut Formatter) -> fmt::Result {
        match self {
            CardError::EmptyName => write!(f, "a name has no byte"),
            CardError::LongName(name) => {
                write!(f, "a name has {} bytes, and 255 at most fit: {}", name.len(), shown(name))
            }
            CardError::SameName(name) => write!(f, "a name is there twice: {}", shown(name)),
            CardError::BadTime { name, time } => {
                write!(f, "a time is from 1 to 2^63 - 1, and not {time}: {}", shown(name))
            }
            CardError::ManyFiles(count) => {
                write!(f, "a card has at most 1,024 files, and not {count}")
            }
            CardError::LongCard(length) => {
                write!(f, "a card has at most 49,152 bytes, and this one {length}")
            }
        }
    }
}

/// A name as a message shows it.
fn shown(name: &[u8]) -> impl Display + '_ {
    name.escape_ascii()
}

impl Error for CardError {}

/// A time card of these files, in any order, each with its time.
///
/// A file's time is any number from 1 to 2^63 - 1 that rises with it; a file that is missing is
/// left out. [`plan`](crate::plan()) never refuses a card of this function with 11.
///
/// # Errors
///
/// What no sound card can say: an empty name or one of over 255 bytes, a name twice, a time of 0 or
/// over 2^63 - 1, more than 1,024 files, more than 49,152 bytes in all.
pub fn card<N: AsRef<[u8]>>(files: &[(N, u64)]) -> Result<Vec<u8>, CardError> {
    let mut records: Vec<(&[u8], u64)> =
        files.iter().map(|(name, time)| (name.as_ref(), *time)).collect();
    records.sort_unstable();
    check(&records)?;
    let names = HEADER + RECORD * records.len();
    let total = names + records.iter().map(|(name, _)| name.len()).sum::<usize>();
    if total > BYTES {
        return Err(CardError::LongCard(total));
    }
    let mut card = Vec::with_capacity(total);
    for number in [records.len(), HEADER, names, total] {
        put(&mut card, number);
    }
    let mut offset = 0;
    for (name, time) in &records {
        put(&mut card, offset);
        put(&mut card, name.len());
        card.extend(time.to_le_bytes());
        offset += name.len();
    }
    records.iter().for_each(|(name, _)| card.extend_from_slice(name));
    Ok(card)
}

/// Four bytes of a number; none that is put is above [`BYTES`].
fn put(card: &mut Vec<u8>, number: usize) {
    card.extend(number.to_le_bytes().into_iter().take(4));
}

/// Looks at sorted records for what a card can't say, but for its length.
fn check(records: &[(&[u8], u64)]) -> Result<(), CardError> {
    if records.len() > FILES {
        return Err(CardError::ManyFiles(records.len()));
    }
    for (name, time) in records {
        if name.is_empty() {
            return Err(CardError::EmptyName);
        }
        if name.len() > NAME {
            return Err(CardError::LongName(name.to_vec()));
        }
        if !(1..=LATEST).contains(time) {
            return Err(CardError::BadTime { name: name.to_vec(), time: *time });
        }
    }
    // sorted, so that equal names are neighbours
    let mut neighbours = records.iter().zip(records.iter().skip(1));
    match neighbours.find(|((name, _), (next, _))| name == next) {
        Some(((name, _), _)) => Err(CardError::SameName(name.to_vec())),
        None => Ok(()),
    }
}
