//! Bundles: manifests by name, in document 02's layout.

use crate::records::{read, taken, written, BYTES, NAME};
use std::error::Error;
use std::fmt::{self, Display, Formatter};

/// The most files of a bundle.
const FILES: usize = 64;

/// The name under which a manifest is lent alone.
const ALONE: &[u8] = b"build.ninja";

/// Manifests by name, as they are lent to an ask: the top file first, and those that it and others
/// open by `include NAME` and `subninja NAME`. Names are compared byte for byte; nothing is read
/// from disk.
///
/// ```
/// use kestrenyo::{text, Bundle, Wanted};
///
/// let mut bundle = Bundle::alone(b"include rules.ninja\nbuild a.o: cc a.c\n");
/// bundle.add("rules.ninja", b"rule cc\n  command = cc -c $in -o $out\n")?;
/// assert_eq!(text(&bundle, 0, Wanted::Command)?, b"cc -c a.c -o a.o");
/// # Ok::<(), Box<dyn std::error::Error>>(())
/// ```
///
/// An opened file is read where its line stands: by `include` in the same scope, by `subninja` in a
/// new one that sees the variables of the files outside and changes none. At most 8 files are open
/// at a time and 64 opened in all, the top one counted. All texts have 49,152 bytes at most
/// together.
#[derive(Debug, Clone, PartialEq, Eq)]
pub struct Bundle {
    bytes: Vec<u8>,
}

/// Why a file can't be added to a bundle.
#[derive(Debug, Clone, PartialEq, Eq)]
#[non_exhaustive]
pub enum BundleError {
    /// The name has no byte.
    EmptyName,
    /// This name has over 255 bytes.
    LongName(Vec<u8>),
    /// This name is there already.
    SameName(Vec<u8>),
    /// There are 64 files already.
    ManyFiles,
    /// The bundle would have so many bytes, over 2^32 - 1.
    LongBundle(usize),
    /// The bytes that the bundle was made from are no bundle's.
    Malformed,
}

impl Display for BundleError {
    fn fmt(&self, f: &mut Formatter) -> fmt::Result {
        match self {
            BundleError::EmptyName => write!(f, "a name has no byte"),
            BundleError::LongName(name) => write!(
                f,
                "a name has {} bytes, and 255 at most fit: {}",
                name.len(),
                name.escape_ascii()
            ),
            BundleError::SameName(name) => {
                write!(f, "a name is there already: {}", name.escape_ascii())
            }
            BundleError::ManyFiles => write!(f, "a bundle has at most 64 files"),
            BundleError::LongBundle(length) => {
                write!(f, "a bundle has at most 2^32 - 1 bytes, and not {length}")
            }
            BundleError::Malformed => write!(f, "the bytes are no bundle"),
        }
    }
}

impl Error for BundleError {}

impl Bundle {
    /// A bundle without files. Lent as it is, it is refused with 19: the top file has to be added.
    pub fn new() -> Self {
        Bundle { bytes: written(&[]) }
    }

    /// One manifest under the name `build.ninja`, as the program lends it. Others may be added.
    ///
    /// Of a text that four bytes can't tell the length of, no more is kept than they can: it is
    /// refused with 2 all the same.
    pub fn alone(manifest: &[u8]) -> Self {
        let most = BYTES - written(&[(ALONE, b"")]).len();
        Bundle { bytes: written(&[(ALONE, manifest.get(..most).unwrap_or(manifest))]) }
    }

    /// The bundle that these bytes are, such as `tools/bundle` writes them. Nothing is looked at: an
    /// ask refuses bytes that are no sound bundle with 19.
    pub fn from_bytes(bytes: impl Into<Vec<u8>>) -> Self {
        Bundle { bytes: bytes.into() }
    }

    /// Adds a file; the first one added to an empty bundle is the top file.
    ///
    /// # Errors
    ///
    /// What no sound bundle can say: an empty name or one of over 255 bytes, a name twice, more than
    /// 64 files, more than 2^32 - 1 bytes in all. The bundle stays as it was.
    pub fn add(
        &mut self,
        name: impl AsRef<[u8]>,
        text: impl AsRef<[u8]>,
    ) -> Result<&mut Self, BundleError> {
        let (name, text) = (name.as_ref(), text.as_ref());
        let mut files = read(&self.bytes).ok_or(BundleError::Malformed)?;
        if name.is_empty() {
            return Err(BundleError::EmptyName);
        }
        if name.len() > NAME {
            return Err(BundleError::LongName(name.to_vec()));
        }
        if files.iter().any(|(other, _)| *other == name) {
            return Err(BundleError::SameName(name.to_vec()));
        }
        if files.len() >= FILES {
            return Err(BundleError::ManyFiles);
        }
        let length = self.bytes.len().saturating_add(taken((name, text)));
        if length > BYTES {
            return Err(BundleError::LongBundle(length));
        }
        files.push((name, text));
        self.bytes = written(&files);
        Ok(self)
    }

    /// The bytes that are lent.
    pub fn as_bytes(&self) -> &[u8] {
        &self.bytes
    }

    /// How many files the bundle has.
    pub fn len(&self) -> usize {
        read(&self.bytes).map_or(0, |files| files.len())
    }

    /// Whether the bundle has no file.
    pub fn is_empty(&self) -> bool {
        self.len() == 0
    }

    /// The name and the text of the file with this record number, counted from 0 as added.
    pub fn file(&self, record: usize) -> Option<(&[u8], &[u8])> {
        read(&self.bytes)?.get(record).copied()
    }
}

impl Default for Bundle {
    fn default() -> Self {
        Bundle::new()
    }
}

impl AsRef<[u8]> for Bundle {
    fn as_ref(&self) -> &[u8] {
        self.as_bytes()
    }
}

#[cfg(test)]
mod tests {
    use super::*;

    #[test]
    fn the_layout() {
        let mut bundle = Bundle::new();
        assert_eq!(bundle.as_bytes(), [0, 0, 0, 0, 16, 0, 0, 0, 16, 0, 0, 0, 16, 0, 0, 0]);
        assert!(bundle.is_empty());
        bundle.add("t", "#\n").unwrap().add("ab", "").unwrap();
        let header = [2, 0, 0, 0, 16, 0, 0, 0, 48, 0, 0, 0, 53, 0, 0, 0];
        let first = [0, 0, 0, 0, 1, 0, 0, 0, 3, 0, 0, 0, 2, 0, 0, 0];
        let second = [1, 0, 0, 0, 2, 0, 0, 0, 5, 0, 0, 0, 0, 0, 0, 0];
        assert_eq!(bundle.as_bytes(), [&header[..], &first, &second, b"tab#\n"].concat());
        assert_eq!(bundle.len(), 2);
        assert_eq!(bundle.file(0), Some((&b"t"[..], &b"#\n"[..])));
        assert_eq!(bundle.file(1), Some((&b"ab"[..], &b""[..])));
        assert_eq!(bundle.file(2), None);
        assert_eq!(Bundle::alone(b"x").file(0), Some((&b"build.ninja"[..], &b"x"[..])));
    }

    #[test]
    fn what_can_not_be_added() {
        let mut bundle = Bundle::alone(b"\n");
        let refused = [
            (bundle.clone().add("", "").err(), BundleError::EmptyName, "no byte"),
            (
                bundle.clone().add("n".repeat(256), "").err(),
                BundleError::LongName(vec![b'n'; 256]),
                "256 bytes, and 255 at most fit: nnn",
            ),
            (
                bundle.clone().add("build.ninja", "").err(),
                BundleError::SameName(b"build.ninja".to_vec()),
                "there already: build.ninja",
            ),
            (
                Bundle::from_bytes(*b"build a: phony\n").add("a", "").err(),
                BundleError::Malformed,
                "no bundle",
            ),
        ];
        for (error, right, sentence) in refused {
            assert_eq!(error, Some(right.clone()));
            assert!(right.to_string().contains(sentence), "{right}");
        }
        bundle.add("n".repeat(255), "").unwrap();
        for number in 2..64 {
            bundle.add(number.to_string(), [b'\n']).unwrap();
        }
        assert_eq!(bundle.len(), 64);
        let before = bundle.clone();
        assert_eq!(bundle.add("one more", "").err(), Some(BundleError::ManyFiles));
        assert_eq!(bundle, before);
        assert!(BundleError::ManyFiles.to_string().contains("at most 64 files"));
        assert!(BundleError::LongBundle(7).to_string().contains("2^32 - 1 bytes, and not 7"));
    }

    /// Bytes that are no bundle's are no fault of who looks at them.
    #[test]
    fn any_bytes() {
        let sound = Bundle::alone(b"\n").bytes;
        for length in 0..sound.len() {
            let cut = Bundle::from_bytes(&sound[..length]);
            assert_eq!((cut.len(), cut.file(0)), (0, None), "{length}");
        }
        for at in 0..sound.len() {
            let mut other = sound.clone();
            other[at] = 0xff;
            let other = Bundle::from_bytes(other);
            let _ = (other.len(), other.file(0), other.file(1), other.is_empty());
        }
        assert_eq!(Bundle::from_bytes([]).len(), 0);
        assert_eq!(Bundle::default(), Bundle::new());
    }
}
