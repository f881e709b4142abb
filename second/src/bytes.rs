//! The byte classes of "Bytes, lines and dollars", as one table of 256 entries.

/// What a byte is to the reader.
#[derive(Debug, Clone, Copy, PartialEq, Eq)]
pub enum Class {
    /// A name byte other than `.`: letter, digit, `_` or `-`.
    Short,
    /// `.`, the name byte that ends a `$name`.
    Dot,
    Space,
    Newline,
    Dollar,
    Colon,
    Pipe,
    Equals,
    Hash,
    Open,
    Close,
    Forbidden,
    Other,
}

impl Class {
    /// Whether the byte may stand in a name.
    pub const fn in_name(self) -> bool {
        matches!(self, Class::Short | Class::Dot)
    }
}

/// The class of each byte.
pub const CLASSES: [Class; 256] = table();

/// The class of one byte.
pub const fn class(byte: u8) -> Class {
    CLASSES[byte as usize]
}

const fn table() -> [Class; 256] {
    let mut classes = [Class::Other; 256];
    let mut byte = 0;
    while byte < 256 {
        classes[byte] = classify(byte as u8);
        byte += 1;
    }
    classes
}

const fn classify(byte: u8) -> Class {
    match byte {
        // Letters are ASCII (reading 11).
        b'a'..=b'z' | b'A'..=b'Z' | b'0'..=b'9' | b'_' | b'-' => Class::Short,
        b'.' => Class::Dot,
        b' ' => Class::Space,
        b'\n' => Class::Newline,
        b'$' => Class::Dollar,
        b':' => Class::Colon,
        b'|' => Class::Pipe,
        b'=' => Class::Equals,
        b'#' => Class::Hash,
        b'{' => Class::Open,
        b'}' => Class::Close,
        0 | b'\t' | b'\r' => Class::Forbidden,
        _ => Class::Other,
    }
}

#[cfg(test)]
mod tests {
    use super::*;

    #[test]
    fn the_rule_of_the_classes_holds_at_every_entry() {
        for byte in 0..=255u8 {
            let in_name = byte.is_ascii_alphanumeric() || b"_.-".contains(&byte);
            assert_eq!(class(byte).in_name(), in_name);
            assert_eq!(class(byte) == Class::Short, in_name && byte != b'.');
            assert_eq!(class(byte) == Class::Forbidden, [0, 9, 13].contains(&byte));
            let own = b" \n$:|=#{}".iter().position(|&own| own == byte);
            let classes = [Class::Space, Class::Newline, Class::Dollar, Class::Colon, Class::Pipe];
            let more = [Class::Equals, Class::Hash, Class::Open, Class::Close];
            let expected = own.map(|place| [&classes[..], &more[..]].concat()[place]);
            assert!(expected.is_none_or(|expected| class(byte) == expected));
        }
    }
}
