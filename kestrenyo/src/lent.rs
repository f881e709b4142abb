//! The asks on buffers that the caller lends: nothing is allocated. Nothing checks these
//! declarations against the library's sources (`crates/kestrenyo`), so they are few; a slice passes
//! as a pointer and a length.

use crate::{Place, TextPlace};

/// What an ask says: 0 and the count of what was written, or a refusal's number and its place.
#[repr(C)]
#[derive(Debug, Clone, Copy, PartialEq, Eq)]
pub struct Said {
    /// 0 for an answer, else the documents' number of the refusal.
    pub number: usize,
    /// 0 where the value is a number by itself; else the value is an offset in the text of the
    /// bundle's record `text - 1`.
    pub text: usize,
    /// The count of steps, bytes or texts written, or the refusal's place.
    pub value: usize,
}

impl Said {
    /// The value as a place.
    pub fn place(self) -> Place {
        match self.text.checked_sub(1) {
            None => Place::Number(self.value),
            Some(record) => Place::Text(TextPlace { record, offset: self.value }),
        }
    }
}

/// Which of a step's texts is asked for.
#[derive(Debug, Clone, Copy, PartialEq, Eq)]
pub enum Wanted {
    /// What is run: its `command`.
    Command,
    /// What is said of it: its `description`.
    Description,
}

/// How far a build is, passed and returned by value. [`Status`](crate::Status) is this with its
/// functions. Any numbers are taken: more started than the total count as the total, more finished
/// than started as those started, a time past the day as the day; rates, elapsed seconds and window
/// are taken as they are.
#[repr(C)]
#[derive(Debug, Clone, Copy, PartialEq)]
pub struct StatusRecord {
    /// All steps.
    pub total: u32,
    /// Jobs at once.
    pub jobs: u32,
    /// Steps started.
    pub started: u32,
    /// Steps finished.
    pub finished: u32,
    /// The last time, in milliseconds.
    pub last: u32,
    /// 0 where the overall rate is unknown.
    pub overall_known: u32,
    /// 0 where the current rate is unknown.
    pub current_known: u32,
    /// The last time, in seconds.
    pub elapsed: f64,
    /// The overall rate, in steps a second.
    pub overall: f64,
    /// The rate of the last finish times.
    pub current: f64,
    /// The last sixteen finish times, in milliseconds, the newest first.
    pub window: [f64; 16],
}

extern "C" {
    fn kestrenyo_status(total: u32, jobs: u32) -> StatusRecord;
    fn kestrenyo_status_started(status: StatusRecord, milliseconds: u64) -> StatusRecord;
    fn kestrenyo_status_finished(status: StatusRecord, milliseconds: u64) -> StatusRecord;
    fn kestrenyo_status_at(status: StatusRecord, milliseconds: u64) -> StatusRecord;
    fn kestrenyo_status_line(
        status: StatusRecord,
        format: *const u8,
        format_len: usize,
        buffer: *mut u8,
        buffer_len: usize,
    ) -> Said;
    fn kestrenyo_plan(
        bundle: *const u8,
        bundle_len: usize,
        headers: *const u8,
        headers_len: usize,
        card: *const u8,
        card_len: usize,
        targets: *const u8,
        targets_len: usize,
        list: *mut u32,
        list_len: usize,
    ) -> Said;
    fn kestrenyo_text(
        bundle: *const u8,
        bundle_len: usize,
        step: usize,
        wanted: usize,
        buffer: *mut u8,
        buffer_len: usize,
    ) -> Said;
    fn kestrenyo_texts(
        bundle: *const u8,
        bundle_len: usize,
        steps: *const u32,
        steps_len: usize,
        wanted: usize,
        bytes: *mut u8,
        bytes_len: usize,
        ends: *mut u32,
        ends_len: usize,
    ) -> Said;
}

impl Wanted {
    /// The library's number for what is wanted.
    fn number(self) -> usize {
        match self {
            Wanted::Command => 0,
            Wanted::Description => 1,
        }
    }
}

/// The plan ask; `bundle` has the bytes of a [`Bundle`](crate::Bundle), `headers` those of
/// [`Headers`](crate::Headers). The steps to run stand at the start of `list`, which has
/// [`LIST`](crate::LIST) numbers at least, and all beyond them is zero. After a refusal all of it is
/// zero, but for two: 14 writes the steps of a circle, their number being its place, and 1 touches
/// nothing.
pub fn plan(bundle: &[u8], headers: &[u8], card: &[u8], targets: &[u8], list: &mut [u32]) -> Said {
    // SAFETY: the function asks nothing of its arguments, reads the slices and writes the list.
    unsafe {
        kestrenyo_plan(
            bundle.as_ptr(),
            bundle.len(),
            headers.as_ptr(),
            headers.len(),
            card.as_ptr(),
            card.len(),
            targets.as_ptr(),
            targets.len(),
            list.as_mut_ptr(),
            list.len(),
        )
    }
}

/// The text ask. The text stands at the start of `buffer`, which has [`TEXT`](crate::TEXT) bytes
/// at least, and all beyond it is zero. After a refusal all of it is zero, but 1 touches nothing.
pub fn text(bundle: &[u8], step: usize, wanted: Wanted, buffer: &mut [u8]) -> Said {
    // SAFETY: the function asks nothing of its arguments, reads the slice and writes the buffer.
    unsafe {
        kestrenyo_text(
            bundle.as_ptr(),
            bundle.len(),
            step,
            wanted.number(),
            buffer.as_mut_ptr(),
            buffer.len(),
        )
    }
}

/// The texts ask. The texts of as many leading steps as there is room for stand end to end at the
/// start of `bytes`, which has [`TEXT`](crate::TEXT) bytes at least, and where each one ends at the
/// start of `ends`, which may have any length; all beyond is zero. The value is their number.
///
/// The first step whose text is refused makes it the refusal of them all, unless a text before it
/// had no room: the steps behind that one are not looked at. After a refusal all of both buffers is
/// zero, but 1 touches nothing. Of a buffer of over 2^32 - 1 bytes no more than that is used.
pub fn texts(
    bundle: &[u8],
    steps: &[u32],
    wanted: Wanted,
    bytes: &mut [u8],
    ends: &mut [u32],
) -> Said {
    // SAFETY: the function asks nothing of its arguments, reads the slices and writes the buffers.
    unsafe {
        kestrenyo_texts(
            bundle.as_ptr(),
            bundle.len(),
            steps.as_ptr(),
            steps.len(),
            wanted.number(),
            bytes.as_mut_ptr(),
            bytes.len(),
            ends.as_mut_ptr(),
            ends.len(),
        )
    }
}

/// The status before the first event.
pub fn status(total: u32, jobs: u32) -> StatusRecord {
    // SAFETY: the function asks nothing of its arguments and touches no memory.
    unsafe { kestrenyo_status(total, jobs) }
}

/// The status after a step started.
pub fn status_started(status: StatusRecord, milliseconds: u64) -> StatusRecord {
    // SAFETY: as above.
    unsafe { kestrenyo_status_started(status, milliseconds) }
}

/// The status after a step finished.
pub fn status_finished(status: StatusRecord, milliseconds: u64) -> StatusRecord {
    // SAFETY: as above.
    unsafe { kestrenyo_status_finished(status, milliseconds) }
}

/// The status with the clock moved to the time of printing.
pub fn status_at(status: StatusRecord, milliseconds: u64) -> StatusRecord {
    // SAFETY: as above.
    unsafe { kestrenyo_status_at(status, milliseconds) }
}

/// The line of a status as it stands, by a format. It stands at the start of `buffer`, which has
/// [`TEXT`](crate::TEXT) bytes at least, and all beyond it is zero. After a refusal all of it is
/// zero, but 1 touches nothing.
pub fn status_line(status: StatusRecord, format: &[u8], buffer: &mut [u8]) -> Said {
    // SAFETY: the function asks nothing of its arguments, reads the slice and writes the buffer.
    unsafe {
        kestrenyo_status_line(
            status,
            format.as_ptr(),
            format.len(),
            buffer.as_mut_ptr(),
            buffer.len(),
        )
    }
}
