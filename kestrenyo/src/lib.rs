//! A build planner whose every answer is proved: from ninja manifests, the header lists that a
//! compiler left, a card of file times and a list of targets it decides which steps to run, in which
//! order, and what each one's command says. It runs nothing itself.
//!
//! ```
//! use kestrenyo::{card, plan, text, texts, Bundle, Headers, Wanted};
//!
//! let manifest = b"rule cc\n  command = cc -c $in -o $out\nbuild a.o: cc a.c\n";
//! let bundle = Bundle::alone(manifest);
//! let times = card(&[("a.c", 9), ("a.o", 7)])?;
//! let steps = plan(&bundle, &Headers::none(), &times, b"")?;
//! assert_eq!(steps, [0]);
//! assert_eq!(text(&bundle, 0, Wanted::Command)?, b"cc -c a.c -o a.o");
//! for command in texts(&bundle, &steps, Wanted::Command) {
//!     println!("{}", String::from_utf8_lossy(&command?));
//! }
//! # Ok::<(), Box<dyn std::error::Error>>(())
//! ```
//!
//! [`plan()`] lists the steps to run, [`text()`] gives the text of one step, and [`texts()`] those of
//! many, without reading the manifests anew for each. They are lent as a [`Bundle`]: one manifest
//! alone, or a top file with those that it opens. [`Headers`] are what a compiler left at the
//! depfiles of steps. [`Status`] prints how far a build is.
//!
//! Any input gets an answer: a list, a text, or a [`Refusal`] with its number and place, of which
//! [`Refusal::located`] tells file, line and column. Nothing panics and nothing is read or written
//! but what is lent.
//!
//! An ask takes [`STACK`] bytes of the calling thread's stack at most, and allocates nothing on
//! the heap but what it returns ([`lent`] not even that). Threads of Rust's standard library have
//! 2 MiB. Asks share nothing, so any number of threads may ask at a time.
//!
//! What is proved is the static library behind this crate. The declarations in [`lent`] and the
//! conversions here are plain Rust, tested and not proved.

#![deny(missing_docs)]

mod bundle;
mod card;
mod headers;
pub mod lent;
mod place;
mod records;
mod refusal;
mod status;
mod texts;

pub use bundle::{Bundle, BundleError};
pub use card::{card, CardError};
pub use headers::{Headers, HeadersError};
pub use lent::Wanted;
pub use place::{Located, Location, Place, TextPlace};
pub use refusal::Refusal;
pub use status::Status;
pub use texts::{texts, Texts};

/// The least list buffer, in numbers: as many as there may be steps.
pub const LIST: usize = 512;

/// The least text buffer, in bytes: as many as a text may have.
pub const TEXT: usize = 8_192;

/// The stack that an ask may take, in bytes.
pub const STACK: usize = 640 << 10;

/// The steps to run, in order: the stale ones of those that the targets need.
///
/// `headers` has the texts at the depfiles of steps: what they list are further inputs. A step whose
/// depfile is not among them is stale, and so is one with a listed file that is missing and that no
/// step makes.
///
/// ```
/// # use kestrenyo::{card, plan, Bundle, Headers};
/// let rule = "rule cc\n  command = cc -MD -MF $depfile -c $in -o $out\n  depfile = $out.d\n";
/// let bundle = Bundle::alone(format!("{rule}build a.o: cc a.c\n").as_bytes());
/// let times = card(&[("a.c", 5), ("a.h", 9), ("a.o", 7)])?;
/// let lists = Headers::of([("a.o.d", "a.o: a.c a.h\n")])?;
/// assert_eq!(plan(&bundle, &lists, &times, b""), Ok(vec![0]));
/// let lists = Headers::of([("a.o.d", "a.o: a.c\n")])?;
/// assert_eq!(plan(&bundle, &lists, &times, b""), Ok(vec![]));
/// # Ok::<(), Box<dyn std::error::Error>>(())
/// ```
///
/// `card` is a time card (see [`card()`]), `targets` the names of files, each ended by a newline;
/// with none, the manifests' defaults, and without those every output that is no step's input.
/// Steps are numbered from 0 as read.
///
/// # Errors
///
/// Refusals 2 to 17, 19 and 20; 1 can't come, since the buffer is this function's own. 16 and 17 are
/// of the name of a step's depfile.
pub fn plan(
    bundle: &Bundle,
    headers: &Headers,
    card: &[u8],
    targets: &[u8],
) -> Result<Vec<u32>, Refusal> {
    let mut list = [0; LIST];
    let said = lent::plan(bundle.as_bytes(), headers.as_bytes(), card, targets, &mut list);
    match said.number {
        0 => Ok(list.into_iter().take(said.value).collect()),
        _ => Err(Refusal::of(said, &list)),
    }
}

/// The text of a step: its `command` or its `description`, expanded. `$in`, `$in_newline` and `$out`
/// give names as a shell reads them back: one of other bytes than letters, digits and `_ + - . /`
/// stands in single quotes, a single quote inside as quote, backslash, quote, quote.
///
/// ```
/// # use kestrenyo::{text, Bundle, Wanted};
/// let manifest = b"rule cc\n  command = cc $in -o $out\nbuild a+b.o: cc left$ hand it's\n";
/// let command = text(&Bundle::alone(manifest), 0, Wanted::Command)?;
/// assert_eq!(command, br"cc 'left hand' 'it'\''s' -o a+b.o");
/// # Ok::<(), kestrenyo::Refusal>(())
/// ```
///
/// # Errors
///
/// Refusals 2 to 10 and 16 to 19; 1 can't come, since the buffer is this function's own.
pub fn text(bundle: &Bundle, step: usize, wanted: Wanted) -> Result<Vec<u8>, Refusal> {
    let mut buffer = [0; TEXT];
    let said = lent::text(bundle.as_bytes(), step, wanted, &mut buffer);
    match said.number {
        0 => Ok(buffer.into_iter().take(said.value).collect()),
        _ => Err(Refusal::of(said, &[])),
    }
}
