//! The small program: plans `build.ninja` by `times.card` for the targets on standard input.

use second::{program, Lent};
use std::fs;
use std::io::{self, Read, Write};

fn main() -> io::Result<()> {
    // A file that can't be opened is read as empty.
    let mut lent = Lent::alone(fs::read("build.ninja").unwrap_or_default());
    lent.card = fs::read("times.card").unwrap_or_default();
    io::stdin().read_to_end(&mut lent.targets)?;
    io::stdout().write_all(&program::output(&lent))
}
