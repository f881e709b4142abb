//! Names hold their quotes: a real shell is given the commands that the library writes, and hands
//! each name to `printf` as it stands in the manifest.

use kestrenyo::{texts, Bundle, Wanted};
use std::io::Write;
use std::process::{Command, Stdio};
use std::thread;

/// 10,000 names in all. Those of a step fit into its text even if all their bytes were quotes.
const MANIFESTS: usize = 10;
const STEPS: usize = 20;
const INPUTS: usize = 50;
const LONGEST: usize = 20;

const QUOTES: &[u8] = b"ab'\\ ";
const SAFE: &[u8] = b"azAZ09_+-./";
const MINDED: &[u8] = b"a'\"\\$`*?[]#~=%!&|;<>(){}, +-./:@^";

/// Random numbers (xorshift).
struct Rng(u64);

impl Rng {
    fn below(&mut self, limit: usize) -> usize {
        self.0 ^= self.0 << 13;
        self.0 ^= self.0 >> 7;
        self.0 ^= self.0 << 17;
        (self.0 >> 11) as usize % limit
    }

    /// A name of any bytes that a path may hold, of such as a shell minds, or of such as it does not.
    fn name(&mut self) -> Vec<u8> {
        let bytes = [QUOTES, SAFE, MINDED].get(self.below(4));
        let length = 1 + self.below(LONGEST);
        let mut name = Vec::new();
        while name.len() < length {
            let byte = match bytes {
                Some(bytes) => bytes[self.below(bytes.len())],
                None => self.below(256) as u8,
            };
            if !matches!(byte, 0 | b'\t' | b'\n' | b'\r') {
                name.push(byte);
            }
        }
        name
    }
}

/// A name as a path of a manifest.
fn path(name: &[u8]) -> Vec<u8> {
    let mut path = Vec::new();
    for &byte in name {
        match byte {
            b'$' | b' ' | b':' => path.extend([b'$', byte]),
            b'|' => path.extend(b"${bar}"),
            _ => path.push(byte),
        }
    }
    path
}

/// What a shell writes that reads this script.
fn run(script: Vec<u8>) -> Vec<u8> {
    let mut shell =
        Command::new("sh").stdin(Stdio::piped()).stdout(Stdio::piped()).spawn().expect("sh");
    let mut input = shell.stdin.take().expect("its standard input");
    let writing = thread::spawn(move || input.write_all(&script));
    let output = shell.wait_with_output().expect("its output");
    writing.join().unwrap().unwrap();
    assert!(output.status.success(), "sh ended with {}", output.status);
    output.stdout
}

#[test]
fn a_shell_gives_each_name_back() {
    let mut rng = Rng(0x9e37_79b9_7f4a_7c15);
    let (mut script, mut expected) = (Vec::new(), Vec::new());
    for _ in 0..MANIFESTS {
        let mut manifest = b"bar = |\nrule r\n  command = printf '%s\\0' $in\n".to_vec();
        for step in 0..STEPS {
            manifest.extend(format!("build out{step}: r").bytes());
            for _ in 0..INPUTS {
                let name = rng.name();
                manifest.push(b' ');
                manifest.extend(path(&name));
                expected.extend(name);
                expected.push(0);
            }
            manifest.push(b'\n');
        }
        let steps: Vec<u32> = (0..STEPS as u32).collect();
        for command in texts(&Bundle::alone(&manifest), &steps, Wanted::Command) {
            script.extend(command.expect("a command"));
            script.push(b'\n');
        }
    }
    let written = run(script);
    assert_eq!(expected.iter().filter(|&&byte| byte == 0).count(), 10_000);
    for (name, read) in expected.split(|&byte| byte == 0).zip(written.split(|&byte| byte == 0)) {
        assert!(name == read, "{} was read as {}", name.escape_ascii(), read.escape_ascii());
    }
    assert_eq!(written.len(), expected.len());
}
