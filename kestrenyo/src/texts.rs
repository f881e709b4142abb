//! The texts of many steps, one behind another, by as few readings of the bundle as the buffers
//! allow.

use crate::lent::{self, Said};
use crate::{Bundle, Refusal, Wanted};
use std::iter::FusedIterator;

/// What one ask has room for: bytes of texts, and texts.
const BYTES: usize = 64 << 10;
const ENDS: usize = 512;

/// The texts of these steps, in this order: each one's `command` or its `description`, expanded.
///
/// Each item is what [`text()`](crate::text()) gives for its step, and nothing comes behind a
/// refusal. But the bundle is not read anew for each step: one reading gives up to 512 texts, or
/// 64 KiB of them. A step may be named several times.
///
/// Nothing is asked before the first text is taken; with no steps nothing is asked at all.
///
/// # Errors
///
/// An item is a refusal, and the last item, where [`text()`](crate::text()) refuses: 2 to 10 and 19,
/// which speak of the bundle, 16 to 18, which speak of a step. 1 can't come.
///
/// ```
/// use kestrenyo::{texts, Bundle, Refusal, Wanted};
///
/// let manifest = b"rule cc\n  command = cc $in\nbuild a: cc b\nbuild c: cc d\nbuild e: phony\n";
/// let bundle = Bundle::alone(manifest);
/// let commands: Result<Vec<_>, _> = texts(&bundle, &[1, 0], Wanted::Command).collect();
/// assert_eq!(commands?, [b"cc d", b"cc b"]);
///
/// let mut some = texts(&bundle, &[0, 2, 1], Wanted::Command);
/// assert_eq!(some.next(), Some(Ok(b"cc b".to_vec())));
/// assert_eq!(some.next(), Some(Err(Refusal::NoCommand(2))));
/// assert_eq!(some.next(), None);
/// # Ok::<(), Box<dyn std::error::Error>>(())
/// ```
pub fn texts<'a>(bundle: &'a Bundle, steps: &'a [u32], wanted: Wanted) -> Texts<'a> {
    let ends = vec![0; steps.len().min(ENDS)];
    let bytes = if steps.is_empty() { Vec::new() } else { vec![0; BYTES] };
    Texts { bundle, steps, wanted, bytes, ends, taken: 0, count: 0, refusal: None }
}

/// The iterator that [`texts()`] gives.
#[derive(Debug, Clone)]
pub struct Texts<'a> {
    bundle: &'a Bundle,
    /// The steps whose texts are still to be asked for.
    steps: &'a [u32],
    wanted: Wanted,
    /// The texts of the last ask, end to end, and where each one ends.
    bytes: Vec<u8>,
    ends: Vec<u32>,
    /// How many texts the last ask gave, and how many of them were taken.
    count: usize,
    taken: usize,
    /// What comes behind the last text.
    refusal: Option<Refusal>,
}

impl<'a> Texts<'a> {
    /// Asks for the texts of the steps that are left. There is room for any text alone, so that one
    /// is there afterwards, or a refusal.
    fn ask(&mut self) {
        let mut said = self.said();
        if said.number != 0 {
            self.refusal = Some(Refusal::of(said, &[]));
            self.steps = self.before_refused(said);
            if !self.steps.is_empty() {
                said = self.said();
            }
        }
        self.taken = 0;
        self.count = if said.number == 0 { said.value } else { 0 };
        self.steps = self.steps.get(self.count..).unwrap_or_default();
    }

    fn said(&mut self) -> Said {
        let bundle = self.bundle.as_bytes();
        lent::texts(bundle, self.steps, self.wanted, &mut self.bytes, &mut self.ends)
    }

    /// The steps before the one whose text is refused, which made the ask refuse all of them; none
    /// where the bundle is refused.
    fn before_refused(&self, said: Said) -> &'a [u32] {
        let of_text = (16..=18).contains(&said.number);
        let is_refused = |&step: &u32| of_text && usize::try_from(step) == Ok(said.value);
        let before = self.steps.iter().position(is_refused);
        self.steps.get(..before.unwrap_or(0)).unwrap_or_default()
    }

    /// The next text of those that the buffers have.
    fn take(&mut self) -> Option<Vec<u8>> {
        let end = |text: usize| self.ends.get(text).map(|&end| end as usize);
        let from = self.taken.checked_sub(1).map_or(Some(0), end)?;
        let text = self.bytes.get(from..end(self.taken)?)?.to_vec();
        self.taken += 1;
        Some(text)
    }
}

impl Iterator for Texts<'_> {
    type Item = Result<Vec<u8>, Refusal>;

    fn next(&mut self) -> Option<Self::Item> {
        if self.taken == self.count && !self.steps.is_empty() {
            self.ask();
        }
        if self.taken < self.count {
            return self.take().map(Ok);
        }
        self.refusal.take().map(Err)
    }

    /// What the buffers have comes for certain; of the other steps one may be refused.
    fn size_hint(&self) -> (usize, Option<usize>) {
        let certain = self.count - self.taken;
        let most = certain + self.steps.len() + usize::from(self.refusal.is_some());
        (certain, Some(most))
    }
}

impl FusedIterator for Texts<'_> {}
