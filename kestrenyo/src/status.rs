//! The line on the little display: how far a build is, and how fast it goes.

use crate::lent::{self, StatusRecord};
use crate::refusal::Refusal;
use crate::TEXT;

/// How far a build is: steps started, running and finished, the time, and both rates.
///
/// Times are milliseconds from the start of the build. One above 86,400,000 (a day) counts as that,
/// one earlier than the last as the last.
///
/// ```
/// use kestrenyo::Status;
///
/// let mut status = Status::new(7, 4);
/// status.started(0);
/// status.finished(35);
/// assert_eq!(status.line(b"[%f/%t %p% %e s]").unwrap_err().number(), 21);
/// assert_eq!(status.line(b"[%f/%t %p%% %e s]")?, b"[1/7 14% 0.035 s]");
/// # Ok::<(), kestrenyo::Refusal>(())
/// ```
#[derive(Debug, Clone, Copy, PartialEq)]
pub struct Status(StatusRecord);

impl Status {
    /// A build of so many steps, with so many jobs at once.
    pub fn new(total: u32, jobs: u32) -> Self {
        Status(lent::status(total, jobs))
    }

    /// A step starts. One past the total changes nothing.
    pub fn started(&mut self, milliseconds: u64) {
        self.0 = lent::status_started(self.0, milliseconds);
    }

    /// A step finishes. With none running it changes nothing.
    pub fn finished(&mut self, milliseconds: u64) {
        self.0 = lent::status_finished(self.0, milliseconds);
    }

    /// Moves the clock to the time of printing, by which `%e` and `%o` go.
    pub fn at(&mut self, milliseconds: u64) {
        self.0 = lent::status_at(self.0, milliseconds);
    }

    /// The line of a format, as the status stands. Its placeholders are those of the ninja manual:
    /// `%s` started, `%t` total, `%p` percent started, `%r` running, `%u` not started, `%f`
    /// finished, `%o` and `%c` the overall and the current rate in steps a second, `?` where it is
    /// unknown, `%e` the elapsed seconds, `%%` a `%`.
    ///
    /// # Errors
    ///
    /// Refusal 21 at a `%` that begins none of these, 17 where the line has over 8,192 bytes.
    pub fn line(&self, format: &[u8]) -> Result<Vec<u8>, Refusal> {
        let mut buffer = [0; TEXT];
        let said = lent::status_line(self.0, format, &mut buffer);
        match said.number {
            0 => Ok(buffer.into_iter().take(said.value).collect()),
            _ => Err(Refusal::of_line(said)),
        }
    }

    /// The record that is passed to the library, for who lends a buffer of their own.
    pub fn record(&self) -> StatusRecord {
        self.0
    }
}
