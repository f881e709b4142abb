//! A real shell reads a quoted name as the name, whatever bytes but 0 it has.

use second::rng::Rng;
use second::text::quoted;
use std::io::Write;
use std::process::{Command, Stdio};
use std::thread;

const NAMES: usize = 10_000;
const MINDED: &[u8] = b"ab'\\\"$`*~ \n\t\r;&|<>(){}[]?#=%!";

/// A name of any bytes, or of such as a shell minds.
fn name(rng: &mut Rng) -> Vec<u8> {
    let minded = rng.chance(50);
    let byte = |rng: &mut Rng| match minded {
        true => MINDED[rng.below(MINDED.len())],
        false => rng.between(1, 255) as u8,
    };
    (0..rng.between(1, 30)).map(|_| byte(rng)).collect()
}

#[test]
fn a_shell_reads_the_name() {
    let mut rng = Rng::new(18);
    let names: Vec<Vec<u8>> = (0..NAMES).map(|_| name(&mut rng)).collect();
    let mut script = Vec::new();
    for names in names.chunks(100) {
        script.extend_from_slice(br"printf '%s\0'");
        for name in names {
            script.push(b' ');
            script.extend_from_slice(&quoted(name));
        }
        script.push(b'\n');
    }
    let mut shell =
        Command::new("sh").stdin(Stdio::piped()).stdout(Stdio::piped()).spawn().expect("sh");
    let mut input = shell.stdin.take().expect("its standard input");
    let writing = thread::spawn(move || input.write_all(&script));
    let output = shell.wait_with_output().expect("its output");
    writing.join().unwrap().unwrap();
    assert!(output.status.success(), "sh ended with {}", output.status);
    let read: Vec<&[u8]> = output.stdout.split(|&byte| byte == 0).collect();
    assert_eq!(read.len(), NAMES + 1, "each name is ended by a 0");
    for (name, read) in names.iter().zip(read) {
        assert!(name == read, "{} was read as {}", name.escape_ascii(), read.escape_ascii());
    }
}
