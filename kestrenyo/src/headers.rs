//! Header lists: the make-style texts that a compiler leaves, by path, in document 02's layout.

use crate::records::{read, taken, written, Record, BYTES, NAME};
use std::collections::HashSet;
use std::error::Error;
use std::fmt::{self, Display, Formatter};

/// The most lists.
const LISTS: usize = 512;

/// Header lists by path, as they are lent to a plan: for each step that has a `depfile`, the text
/// that its compiler left there. Paths are compared byte for byte with what a step's `depfile`
/// expands to, without quotes; nothing is read from disk. A step whose depfile is not among them is
/// stale.
///
/// ```
/// use kestrenyo::Headers;
///
/// let lists = Headers::of([("a.o.d", "a.o: a.c a.h\n"), ("b.o.d", "b.o: b.c\n")])?;
/// assert_eq!(lists.len(), 2);
/// assert_eq!(lists.list(0), Some((&b"a.o.d"[..], &b"a.o: a.c a.h\n"[..])));
/// # Ok::<(), kestrenyo::HeadersError>(())
/// ```
///
/// A text is one rule with blank lines around it. Its first target is the step's first output, and
/// the names behind the first colon are further inputs of the step. A backslash before a space or a
/// `#` gives that byte, before a newline it is a space, and `$$` gives `$`.
#[derive(Debug, Clone, PartialEq, Eq)]
pub struct Headers {
    bytes: Vec<u8>,
}

/// Why a list can't be added.
#[derive(Debug, Clone, PartialEq, Eq)]
#[non_exhaustive]
pub enum HeadersError {
    /// The path has no byte.
    EmptyPath,
    /// This path has over 255 bytes.
    LongPath(Vec<u8>),
    /// This path has a list already.
    SamePath(Vec<u8>),
    /// There are 512 lists already.
    ManyLists,
    /// The lists would have so many bytes, over 2^32 - 1.
    LongLists(usize),
    /// The bytes that the lists were made from are none.
    Malformed,
}

impl Display for HeadersError {
    fn fmt(&self, f: &mut Formatter) -> fmt::Result {
        match self {
            HeadersError::EmptyPath => write!(f, "a list's path has no byte"),
            HeadersError::LongPath(path) => write!(
                f,
                "a list's path has {} bytes, and 255 at most fit: {}",
                path.len(),
                path.escape_ascii()
            ),
            HeadersError::SamePath(path) => {
                write!(f, "a path has a list already: {}", path.escape_ascii())
            }
            HeadersError::ManyLists => write!(f, "there are at most 512 header lists"),
            HeadersError::LongLists(length) => {
                write!(f, "header lists have at most 2^32 - 1 bytes in all, and not {length}")
            }
            HeadersError::Malformed => write!(f, "the bytes are no header lists"),
        }
    }
}

impl Error for HeadersError {}

impl Headers {
    /// No lists, as the program lends them: every step that has a depfile is stale.
    pub fn none() -> Self {
        Headers { bytes: written(&[]) }
    }

    /// The lists of these paths, in this order.
    ///
    /// # Errors
    ///
    /// What no sound lists can say: an empty path or one of over 255 bytes, a path twice, more than
    /// 512 lists, more than 2^32 - 1 bytes in all.
    pub fn of<P: AsRef<[u8]>, T: AsRef<[u8]>>(
        lists: impl IntoIterator<Item = (P, T)>,
    ) -> Result<Self, HeadersError> {
        let lists: Vec<(P, T)> = lists.into_iter().collect();
        let lists = lists.iter().map(|(path, text)| (path.as_ref(), text.as_ref()));
        added(Vec::new(), lists)
    }

    /// The lists that these bytes are, such as `tools/headers` writes them. Nothing is looked at: a
    /// plan refuses bytes that are no sound lists with 20.
    pub fn from_bytes(bytes: impl Into<Vec<u8>>) -> Self {
        Headers { bytes: bytes.into() }
    }

    /// Adds a list. Each one is as much work as all before it: for many, [`Headers::of`] is quicker.
    ///
    /// # Errors
    ///
    /// As [`Headers::of`]; the lists stay as they were.
    pub fn add(
        &mut self,
        path: impl AsRef<[u8]>,
        text: impl AsRef<[u8]>,
    ) -> Result<&mut Self, HeadersError> {
        let lists = read(&self.bytes).ok_or(HeadersError::Malformed)?;
        *self = added(lists, [(path.as_ref(), text.as_ref())].into_iter())?;
        Ok(self)
    }

    /// The bytes that are lent.
    pub fn as_bytes(&self) -> &[u8] {
        &self.bytes
    }

    /// How many lists there are.
    pub fn len(&self) -> usize {
        read(&self.bytes).map_or(0, |lists| lists.len())
    }

    /// Whether there is no list.
    pub fn is_empty(&self) -> bool {
        self.len() == 0
    }

    /// The path and the text of the list with this record number, counted from 0 as added.
    pub fn list(&self, record: usize) -> Option<(&[u8], &[u8])> {
        read(&self.bytes)?.get(record).copied()
    }
}

impl Default for Headers {
    fn default() -> Self {
        Headers::none()
    }
}

impl AsRef<[u8]> for Headers {
    fn as_ref(&self) -> &[u8] {
        self.as_bytes()
    }
}

/// The lists with more behind them.
fn added<'a>(
    mut lists: Vec<Record<'a>>,
    more: impl Iterator<Item = Record<'a>>,
) -> Result<Headers, HeadersError> {
    let mut paths: HashSet<&[u8]> = lists.iter().map(|(path, _)| *path).collect();
    let mut length = written(&[]).len();
    length = lists.iter().fold(length, |length, list| length.saturating_add(taken(*list)));
    for (path, text) in more {
        if path.is_empty() {
            return Err(HeadersError::EmptyPath);
        }
        if path.len() > NAME {
            return Err(HeadersError::LongPath(path.to_vec()));
        }
        if !paths.insert(path) {
            return Err(HeadersError::SamePath(path.to_vec()));
        }
        if lists.len() >= LISTS {
            return Err(HeadersError::ManyLists);
        }
        length = length.saturating_add(taken((path, text)));
        if length > BYTES {
            return Err(HeadersError::LongLists(length));
        }
        lists.push((path, text));
    }
    Ok(Headers { bytes: written(&lists) })
}

#[cfg(test)]
mod tests {
    use super::*;

    #[test]
    fn the_layout() {
        let none = Headers::none();
        assert_eq!(none.as_bytes(), [0, 0, 0, 0, 16, 0, 0, 0, 16, 0, 0, 0, 16, 0, 0, 0]);
        assert!(none.is_empty() && none == Headers::default());
        let lists = Headers::of([("o.d", "o:\n"), ("p", "")]).unwrap();
        let header = [2, 0, 0, 0, 16, 0, 0, 0, 48, 0, 0, 0, 55, 0, 0, 0];
        let first = [0, 0, 0, 0, 3, 0, 0, 0, 4, 0, 0, 0, 3, 0, 0, 0];
        let second = [3, 0, 0, 0, 1, 0, 0, 0, 7, 0, 0, 0, 0, 0, 0, 0];
        assert_eq!(lists.as_bytes(), [&header[..], &first, &second, b"o.dpo:\n"].concat());
        let mut one_by_one = Headers::none();
        one_by_one.add("o.d", "o:\n").unwrap().add("p", "").unwrap();
        assert_eq!((&one_by_one, lists.len()), (&lists, 2));
        assert_eq!(lists.list(0), Some((&b"o.d"[..], &b"o:\n"[..])));
        assert_eq!(lists.list(1), Some((&b"p"[..], &b""[..])));
        assert_eq!(lists.list(2), None);
    }

    #[test]
    fn what_can_not_be_added() {
        let lists = Headers::of([("a", "a:\n")]).unwrap();
        let refused = [
            (lists.clone().add("", "").err(), HeadersError::EmptyPath, "no byte"),
            (
                lists.clone().add("n".repeat(256), "").err(),
                HeadersError::LongPath(vec![b'n'; 256]),
                "256 bytes, and 255 at most fit: nnn",
            ),
            (
                lists.clone().add("a", "").err(),
                HeadersError::SamePath(b"a".to_vec()),
                "a list already: a",
            ),
            (
                Headers::from_bytes(*b"a.o: a.c a.h and more\n").add("a", "").err(),
                HeadersError::Malformed,
                "no header lists",
            ),
            (Headers::of([("b", ""), ("b", "")]).err(), HeadersError::SamePath(vec![b'b']), "b"),
        ];
        for (error, right, sentence) in refused {
            assert_eq!(error, Some(right.clone()));
            assert!(right.to_string().contains(sentence), "{right}");
        }
        let numbered =
            |count: usize| (0..count).map(|k| (format!("{k}.d"), "")).collect::<Vec<_>>();
        let mut most = Headers::of(numbered(512)).unwrap();
        assert_eq!(most.len(), 512);
        let before = most.clone();
        assert_eq!(most.add("one more", "").err(), Some(HeadersError::ManyLists));
        assert_eq!(most, before);
        assert_eq!(Headers::of(numbered(513)).err(), Some(HeadersError::ManyLists));
        assert!(Headers::of([("n".repeat(255), "")]).is_ok());
        assert!(HeadersError::ManyLists.to_string().contains("at most 512"));
        assert!(HeadersError::LongLists(7)
            .to_string()
            .contains("2^32 - 1 bytes in all, and not 7"));
    }

    /// Bytes that are no lists are no fault of who looks at them.
    #[test]
    fn any_bytes() {
        let sound = Headers::of([("a", "\n")]).unwrap().bytes;
        for length in 0..sound.len() {
            let cut = Headers::from_bytes(&sound[..length]);
            assert_eq!((cut.len(), cut.list(0)), (0, None), "{length}");
        }
        for at in 0..sound.len() {
            let mut other = sound.clone();
            other[at] = 0xff;
            let other = Headers::from_bytes(other);
            let _ = (other.len(), other.list(0), other.list(1), other.is_empty());
        }
        assert_eq!(Headers::from_bytes([]).as_bytes(), []);
    }
}
