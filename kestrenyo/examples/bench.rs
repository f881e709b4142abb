//! Plans the bench example of document 01, its rule in a file of its own, and prints what the program
//! prints: `cargo run --example bench`.

use kestrenyo::{card, plan, texts, Bundle, Headers, Wanted};
use std::error::Error;

const MANIFEST: &[u8] = b"cflags = -O1
include rules.ninja
build b.o: cc b.c
build a.o: cc a.c | t.h
  cflags = -O2
build axis: phony a.o b.o
default axis
";

const RULES: &[u8] = b"rule cc
  command = cc $cflags -c $in -o $out
";

fn main() -> Result<(), Box<dyn Error>> {
    let card = card(&[("a.c", 5), ("b.c", 5), ("t.h", 9), ("a.o", 7)])?;
    let mut bundle = Bundle::alone(MANIFEST);
    bundle.add("rules.ninja", RULES)?;
    // a refusal is shown with the file, the line and the column of its place
    let steps = plan(&bundle, &Headers::none(), &card, b"")
        .map_err(|refusal| refusal.located(&bundle).to_string())?;
    for (place, command) in (1..).zip(texts(&bundle, &steps, Wanted::Command)) {
        println!("[{place}/{}] {}", steps.len(), String::from_utf8_lossy(&command?));
    }
    Ok(())
}
