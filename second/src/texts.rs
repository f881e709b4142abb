//! The texts of many steps by one reading of the manifest, as far as the lent buffers have room.

use crate::manifest::Manifest;
use crate::text::text;
use crate::{Refusal, Wanted};

/// What the lent buffers have room for: bytes, and ends of texts.
#[derive(Debug, Clone, Copy, PartialEq, Eq)]
pub struct Room {
    pub bytes: usize,
    pub ends: usize,
}

/// An end is a number of four bytes: what a buffer has beyond the greatest one is not used.
const LAST_END: usize = u32::MAX as usize;

/// The texts of the steps in their order, up to the first one that there is no room for; the steps
/// behind it are not looked at. A step's text is asked for before room is: its refusal is the
/// answer even where its text would have had no room.
pub fn texts(
    manifest: &Manifest,
    steps: &[u32],
    wanted: Wanted,
    room: Room,
) -> Result<Vec<Vec<u8>>, Refusal> {
    let mut texts = Vec::new();
    let mut left = room.bytes.min(LAST_END);
    for &step in steps {
        let text = text(manifest, step as usize, wanted)?;
        if text.len() > left || texts.len() == room.ends {
            break;
        }
        left -= text.len();
        texts.push(text);
    }
    Ok(texts)
}
