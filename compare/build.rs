//! Links the static libraries that `tools/archive` builds of the crates that only tests link.

use std::path::Path;

const LIBRARIES: [&str; 2] = ["test_scan", "test_manifest"];

fn main() {
    let crates = format!("{}/../crates", env!("CARGO_MANIFEST_DIR"));
    for library in LIBRARIES {
        let folder = format!("{crates}/{library}/out");
        println!("cargo:rustc-link-search=native={folder}");
        println!("cargo:rustc-link-lib=static={library}");
        println!("cargo:rerun-if-changed={folder}/lib{library}.a");
        // a warning and no error, since clippy and rustdoc link nothing
        if !Path::new(&format!("{folder}/lib{library}.a")).exists() {
            println!("cargo:warning=no crates/{library}/out/lib{library}.a: `tools/archive {library}` in the folder above writes it");
        }
    }
}
