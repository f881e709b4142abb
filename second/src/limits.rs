//! The limits of this edition, each under the name that document 01 gives it.

/// The least list buffer that may be lent, in numbers.
pub const LIST: usize = 512;
/// The least text buffer that may be lent, and the longest expanded text, in bytes.
pub const TEXT: usize = 8_192;
/// The longest manifest, in bytes: all texts of the bundle together.
pub const MANIFEST: usize = 49_152;
/// The most records of a bundle of manifests.
pub const NAMES: usize = 64;
/// The most records of a bundle of header lists.
pub const HEADERS: usize = 512;
/// The most files that are open at once, the top one counted.
pub const OPEN: usize = 8;
/// The most files that are opened in all, the top one counted.
pub const OPENED: usize = 64;
/// The longest time card, in bytes.
pub const CARD: usize = 49_152;
/// The most records of a time card.
pub const RECORDS: usize = 1_024;
/// The greatest time on a card.
pub const TIME: u64 = (1 << 63) - 1;
/// The longest target list, in bytes.
pub const TARGETS: usize = 4_096;
pub const STEPS: usize = 512;
pub const FILES: usize = 1_024;
/// Declared rules; `phony` is not counted (reading 18).
pub const RULES: usize = 128;
/// Binding lines: file lines and lines of any block, rules' too.
pub const BINDINGS: usize = 1_024;
/// Path mentions of build and default lines, and of header lists.
pub const MENTIONS: usize = 4_096;
/// Bytes of a declared name: a rule's, or one on the left of `=` (reading 19).
pub const NAME: usize = 64;
/// Bytes of a path, expanded; also of a name on the card, in the target list or of a bundle.
pub const PATH: usize = 255;
/// Bytes of a value: a rule's as written, any other expanded.
pub const VALUE: usize = 2_048;
/// Bytes of all paths and values read so far, measured the same way.
pub const TOGETHER: usize = 60_000;
/// The greatest number in a version.
pub const VERSION_NUMBER: u16 = 65_535;
