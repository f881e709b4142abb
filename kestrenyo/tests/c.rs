//! The C examples, compiled with the header and run.

use std::process::Command;

/// What a C example writes, compiled with the header and run.
fn written(example: &str) -> String {
    let here = env!("CARGO_MANIFEST_DIR");
    let program = format!("{}/{example}", env!("CARGO_TARGET_TMPDIR"));
    let status = Command::new("cc")
        .args(["-std=c99", "-Wall", "-Wextra", "-Wpedantic", "-Werror", "-O2"])
        .arg(format!("-I{here}/../include"))
        .arg(format!("{here}/examples/{example}.c"))
        .arg(env!("KESTRENYO_LIBRARY"))
        .args(["-o", &program])
        .status()
        .expect("a C compiler");
    assert!(status.success());
    let output = Command::new(&program).output().expect("the compiled example");
    assert!(output.status.success());
    String::from_utf8(output.stdout).expect("text")
}

#[test]
fn the_bench_from_c() {
    let lines = "[1/2] cc -O1 -c b.c -o b.o\n[2/2] cc -O2 -c a.c -o a.o\n";
    assert_eq!(written("bench"), lines);
}

/// Records by value, to the library and back, as C passes them. The lines come from the sentences
/// of document 02's request [6].
#[test]
fn the_status_from_c() {
    let lines = "\
[1/3 33%] 1 running, 0 finished, ?/s, now ?/s, 0.000 s
[2/3 66%] 2 running, 0 finished, 0.0/s, now ?/s, 0.020 s
[2/3 66%] 1 running, 1 finished, 2.0/s, now ?/s, 0.500 s
[3/3 100%] 2 running, 1 finished, 1.9/s, now ?/s, 0.510 s
[3/3 100%] 1 running, 2 finished, 2.2/s, now 5.0/s, 0.900 s
[3/3 100%] 0 running, 3 finished, 2.3/s, now 5.0/s, 1.300 s
";
    assert_eq!(written("status"), lines);
}

/// The header's numbers are those of the Rust crate.
#[test]
fn the_headers_numbers() {
    let header = include_str!("../../include/kestrenyo.h");
    for line in [
        format!("#define KESTRENYO_LIST {}", kestrenyo::LIST),
        format!("#define KESTRENYO_TEXT {}", kestrenyo::TEXT),
        format!("#define KESTRENYO_STACK ({} * 1024)", kestrenyo::STACK / 1024),
    ] {
        assert!(header.lines().any(|other| other == line), "{line}");
    }
}
