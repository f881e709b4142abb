//! Links the static library: the one that `tools/archive kestrenyo` built, else that of `dist/`, if
//! it was built from the sources as they are.

use std::path::Path;
use std::process::Command;

fn main() {
    let top = concat!(env!("CARGO_MANIFEST_DIR"), "/..");
    let built = format!("{top}/crates/kestrenyo/out");
    let is_built = Path::new(&format!("{built}/libkestrenyo.a")).exists();
    let is_kept = !is_built && is_current(top);
    let folder = if is_kept { format!("{top}/dist") } else { built.clone() };
    println!("cargo:rustc-link-search=native={folder}");
    println!("cargo:rustc-link-lib=static=kestrenyo");
    // for the test that has a C program linked
    println!("cargo:rustc-env=KESTRENYO_LIBRARY={folder}/libkestrenyo.a");
    println!("cargo:rerun-if-changed={built}/libkestrenyo.a");
    println!("cargo:rerun-if-changed={top}/dist");
    // a warning and no error, since clippy and rustdoc link nothing
    if !is_built && !is_kept {
        println!("cargo:warning=no crates/kestrenyo/out/libkestrenyo.a: `tools/archive kestrenyo` in the folder above writes it");
    }
}

/// Whether `dist/` was built from the sources as they are.
fn is_current(top: &str) -> bool {
    let asked = Command::new(format!("{top}/tools/dist")).arg("--current").status();
    asked.is_ok_and(|status| status.success())
}
