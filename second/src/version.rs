//! Versions: read from bytes, compared, checked against ours.

use crate::limits::VERSION_NUMBER;

/// Major, minor and patch number, compared in that order.
#[derive(Debug, Clone, Copy, PartialEq, Eq, PartialOrd, Ord)]
pub struct Version([u16; 3]);

impl Version {
    pub const OURS: Version = Version([1, 5, 0]);
    pub const LEAST: Version = Version([0, 0, 0]);

    /// One to three decimal numbers with dots, absent ones 0; nothing if malformed.
    pub fn read(bytes: &[u8]) -> Option<Version> {
        let mut version = Version::LEAST;
        for (place, digits) in bytes.split(|&b| b == b'.').enumerate() {
            *version.0.get_mut(place)? = number(digits)?;
        }
        Some(version)
    }
}

/// A decimal number up to 65,535, leading zeros allowed.
fn number(digits: &[u8]) -> Option<u16> {
    if digits.is_empty() {
        return None;
    }
    let number = digits.iter().try_fold(0u32, |number, digit| match digit {
        b'0'..=b'9' => {
            let next = number * 10 + u32::from(digit - b'0');
            (next <= u32::from(VERSION_NUMBER)).then_some(next)
        }
        _ => None,
    });
    number.and_then(|number| u16::try_from(number).ok())
}
