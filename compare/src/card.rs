//! The proved card.

extern "C" {
    fn kestrenyo_card_sound(card: *const u8, card_len: usize) -> bool;
    fn kestrenyo_card_time(
        card: *const u8,
        card_len: usize,
        name: *const u8,
        name_len: usize,
    ) -> u64;
    fn kestrenyo_card_listed(
        card: *const u8,
        card_len: usize,
        list: *const u8,
        list_len: usize,
    ) -> usize;
}

/// Whether a card breaks no rule.
pub fn sound(card: &[u8]) -> bool {
    // SAFETY: the function is total and reads the slice alone.
    unsafe { kestrenyo_card_sound(card.as_ptr(), card.len()) }
}

/// The time of a file on a card, 0 where it is not listed or the card is not sound.
pub fn time(card: &[u8], name: &[u8]) -> u64 {
    // SAFETY: the function is total and reads the two slices alone.
    unsafe { kestrenyo_card_time(card.as_ptr(), card.len(), name.as_ptr(), name.len()) }
}

/// How many names of a list, each ended by a newline, a card lists: 0 where it is not sound.
pub fn listed(card: &[u8], list: &[u8]) -> usize {
    // SAFETY: the function is total and reads the two slices alone.
    unsafe { kestrenyo_card_listed(card.as_ptr(), card.len(), list.as_ptr(), list.len()) }
}
