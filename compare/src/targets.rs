//! The proved target list.

extern "C" {
    fn kestrenyo_targets_malformed(list: *const u8, list_len: usize) -> bool;
    fn kestrenyo_target_at(list: *const u8, list_len: usize, from: usize) -> usize;
}

/// What stands at a place where a name may start.
#[derive(Debug, Clone, Copy, PartialEq, Eq)]
pub enum Target {
    /// The list ends.
    End,
    /// A name that is empty or too long.
    Bad,
    /// A name up to this place, where its newline stands.
    Name(usize),
}

/// Whether the list is too long or its last name is unended.
pub fn malformed(list: &[u8]) -> bool {
    // SAFETY: the function is total and reads the slice alone.
    unsafe { kestrenyo_targets_malformed(list.as_ptr(), list.len()) }
}

/// What starts at a place.
pub fn at(list: &[u8], from: usize) -> Target {
    // SAFETY: the function is total and reads the slice alone.
    match unsafe { kestrenyo_target_at(list.as_ptr(), list.len(), from) } {
        0 => Target::End,
        1 => Target::Bad,
        number => Target::Name(number - 1),
    }
}
