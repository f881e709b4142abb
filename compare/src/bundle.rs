//! The proved bundle.

extern "C" {
    fn kestrenyo_bundle_count(b: *const u8, b_len: usize, least: usize, most: usize) -> usize;
    fn kestrenyo_bundle_find(b: *const u8, b_len: usize, path: *const u8, path_len: usize)
        -> usize;
    fn kestrenyo_bundle_text(
        b: *const u8,
        b_len: usize,
        k: usize,
        text: *const u8,
        text_len: usize,
    ) -> usize;
    fn kestrenyo_bundle_base(b: *const u8, b_len: usize, k: usize) -> usize;
    fn kestrenyo_bundle_spot(b: *const u8, b_len: usize, place: usize) -> usize;
    fn kestrenyo_bundle_wrap(
        name: *const u8,
        name_len: usize,
        text: *const u8,
        text_len: usize,
        out: *mut u8,
        out_len: usize,
    ) -> usize;
}

/// How many records a sound bundle has, which may have `least` to `most`, 512 at most.
pub fn count(bundle: &[u8], (least, most): (usize, usize)) -> Option<usize> {
    // SAFETY: the function is total and reads the slice alone.
    let count = unsafe { kestrenyo_bundle_count(bundle.as_ptr(), bundle.len(), least, most) };
    count.checked_sub(1)
}

/// The record of a name in a sound bundle of 512 records at most; none where it is malformed.
pub fn find(bundle: &[u8], path: &[u8]) -> Option<Option<usize>> {
    // SAFETY: the function is total and reads the two slices alone.
    let found =
        unsafe { kestrenyo_bundle_find(bundle.as_ptr(), bundle.len(), path.as_ptr(), path.len()) };
    found.checked_sub(1).map(|found| found.checked_sub(1))
}

/// Whether a manifest's bundle, of 1 to 64 records, is sound and has this text in record k.
pub fn has_text(bundle: &[u8], k: usize, text: &[u8]) -> bool {
    // SAFETY: the function is total and reads the two slices alone.
    let length = unsafe {
        kestrenyo_bundle_text(bundle.as_ptr(), bundle.len(), k, text.as_ptr(), text.len())
    };
    length == text.len() + 1
}

/// Where text k of a manifest's bundle begins among all its texts, 0 where there is none.
pub fn base(bundle: &[u8], k: usize) -> usize {
    // SAFETY: the function is total and reads the slice alone.
    unsafe { kestrenyo_bundle_base(bundle.as_ptr(), bundle.len(), k) }
}

/// The text that a place among all texts of a manifest's bundle is in, none where it is past them
/// all; none at all where the bundle is malformed.
pub fn text_of(bundle: &[u8], place: usize) -> Option<Option<usize>> {
    // SAFETY: the function is total and reads the slice alone.
    let text = unsafe { kestrenyo_bundle_spot(bundle.as_ptr(), bundle.len(), place) };
    text.checked_sub(1).map(|text| text.checked_sub(1))
}

/// The bundle of one record, written to the front of a buffer. Its length, 0 where it has no room.
pub fn wrap(name: &[u8], text: &[u8], out: &mut [u8]) -> usize {
    // SAFETY: the function is total, reads the two slices and writes the third alone.
    unsafe {
        kestrenyo_bundle_wrap(
            name.as_ptr(),
            name.len(),
            text.as_ptr(),
            text.len(),
            out.as_mut_ptr(),
            out.len(),
        )
    }
}
