//! The proved scanners. A start past the end is the end.

extern "C" {
    fn kestrenyo_class(byte: u8) -> u8;
    fn kestrenyo_spaces(s: *const u8, s_len: usize, from: usize) -> usize;
    fn kestrenyo_gap(s: *const u8, s_len: usize, from: usize) -> usize;
    fn kestrenyo_name(s: *const u8, s_len: usize, from: usize) -> usize;
    fn kestrenyo_dollar(s: *const u8, s_len: usize, from: usize) -> usize;
    fn kestrenyo_path(s: *const u8, s_len: usize, from: usize) -> usize;
    fn kestrenyo_paths(s: *const u8, s_len: usize, from: usize) -> usize;
    fn kestrenyo_bad_dollar(raw: *const u8, raw_len: usize) -> usize;
    fn kestrenyo_rule_word(word: *const u8, word_len: usize) -> u8;
    fn kestrenyo_key_word(word: *const u8, word_len: usize) -> u8;
    fn kestrenyo_line_end(m: *const u8, m_len: usize, from: usize) -> usize;
    fn kestrenyo_line_kind(line: *const u8, line_len: usize) -> u8;
    fn kestrenyo_bad_byte(m: *const u8, m_len: usize) -> usize;
}

// SAFETY of each call below: the function is total and reads the slice alone.

/// The class number of a byte.
pub fn class(byte: u8) -> u8 {
    unsafe { kestrenyo_class(byte) }
}

/// Where a run of spaces ends.
pub fn spaces(s: &[u8], from: usize) -> usize {
    unsafe { kestrenyo_spaces(s.as_ptr(), s.len(), from) }
}

/// Where spaces and joins end.
pub fn gap(s: &[u8], from: usize) -> usize {
    unsafe { kestrenyo_gap(s.as_ptr(), s.len(), from) }
}

/// Where a name ends.
pub fn name(s: &[u8], from: usize) -> usize {
    unsafe { kestrenyo_name(s.as_ptr(), s.len(), from) }
}

/// Where the bytes after what the `$` in front of `from` begins start, if it is sound.
pub fn dollar(s: &[u8], from: usize) -> Option<usize> {
    unsafe { kestrenyo_dollar(s.as_ptr(), s.len(), from) }.checked_sub(1)
}

/// Where a path of a line ends, or the place of its first bad `$`.
pub fn path(line: &[u8], from: usize) -> Result<usize, usize> {
    stop(unsafe { kestrenyo_path(line.as_ptr(), line.len(), from) })
}

/// Where a list of paths of a line ends, or the place of its first bad `$`.
pub fn paths(line: &[u8], from: usize) -> Result<usize, usize> {
    stop(unsafe { kestrenyo_paths(line.as_ptr(), line.len(), from) })
}

fn stop(number: usize) -> Result<usize, usize> {
    if number.is_multiple_of(2) {
        Ok(number / 2)
    } else {
        Err(number / 2)
    }
}

/// The place of the first bad `$` of a raw value.
pub fn bad_dollar(raw: &[u8]) -> Option<usize> {
    unsafe { kestrenyo_bad_dollar(raw.as_ptr(), raw.len()) }.checked_sub(1)
}

/// The refusal (4 or 6) of a word where a rule is named, or 0.
pub fn rule_word(word: &[u8]) -> u8 {
    unsafe { kestrenyo_rule_word(word.as_ptr(), word.len()) }
}

/// The refusal (4 or 6) of a word where a key is named, or 0.
pub fn key_word(word: &[u8]) -> u8 {
    unsafe { kestrenyo_key_word(word.as_ptr(), word.len()) }
}

/// The place behind the newline that ends the line at `from`, if one does.
pub fn line_end(manifest: &[u8], from: usize) -> Option<usize> {
    let number = unsafe { kestrenyo_line_end(manifest.as_ptr(), manifest.len(), from) };
    (number > 0).then_some(number)
}

/// The kind of a line that is given without the newline that ends it: 0 comment, 1 blank, 2
/// indented, 3 statement.
pub fn line_kind(line: &[u8]) -> u8 {
    unsafe { kestrenyo_line_kind(line.as_ptr(), line.len()) }
}

/// The place of a manifest's first fault under 3.
pub fn bad_byte(manifest: &[u8]) -> Option<usize> {
    unsafe { kestrenyo_bad_byte(manifest.as_ptr(), manifest.len()) }.checked_sub(1)
}
