//! Prints the status of a small build as its steps start and finish: `cargo run --example status`.

use kestrenyo::{Refusal, Status};

fn main() -> Result<(), Refusal> {
    let mut status = Status::new(3, 2);
    for (finishes, milliseconds) in
        [(false, 0), (false, 20), (true, 500), (false, 510), (true, 900), (true, 1_300)]
    {
        match finishes {
            true => status.finished(milliseconds),
            false => status.started(milliseconds),
        }
        let line = status.line(b"[%s/%t %p%%] %r running, %f finished, %o/s, now %c/s, %e s")?;
        println!("{}", String::from_utf8_lossy(&line));
    }
    Ok(())
}
