//! The proved scanners against the second planner's, on random lines and on manifests that are
//! sound or damaged.

use compare::scan;
use second::bytes::{class, Class};
use second::line::{self, Binding, Build, Open, Opening, Statement};
use second::rng::Rng;
use second::scan::{Fault, Scanner};
use second::{bundle, generate, limits, manifest};

const LINES: u64 = 200_000;
const WORDS: u64 = 20_000;
const MANIFESTS: u64 = 40_000;

/// Bytes in which dollars, joins and the ends of paths are common.
fn bytes(rng: &mut Rng, length: usize) -> Vec<u8> {
    const COMMON: &[u8] = b"$$$$$$\n\n\n    ::||{{}}..aaZ9_-=#/";
    let rare = rng.below(4);
    (0..length)
        .map(|_| match rng.below(100) {
            0..=3 if rare == 0 => rng.number() as u8,
            0..=3 if rare == 1 => 128 | rng.number() as u8,
            4..=40 if rare == 2 => b'a' + rng.below(26) as u8,
            _ => COMMON[rng.below(COMMON.len())],
        })
        .collect()
}

fn length(rng: &mut Rng) -> usize {
    match rng.below(1_000) {
        0 => rng.between(30_000, limits::MANIFEST - 2),
        1..=30 => rng.between(200, 2_000),
        31..=300 => rng.between(20, 100),
        _ => rng.below(20),
    }
}

/// The part of some bytes that is one line from place 0 on: up to the first newline that no `$`
/// takes along.
fn body_end(bytes: &[u8]) -> Option<usize> {
    let mut at = 0;
    while at < bytes.len() {
        match bytes[at] {
            b'\n' => return Some(at),
            b'$' => at += 2,
            _ => at += 1,
        }
    }
    None
}

/// Tokens at any place of any bytes, and past their end.
fn tokens(seed: u64, rng: &mut Rng, bytes: &[u8]) {
    let from = rng.below(bytes.len() + 1);
    let after = |pass: fn(&mut Scanner)| {
        let mut scan = Scanner::new(bytes, from);
        pass(&mut scan);
        scan.at()
    };
    assert_eq!(scan::spaces(bytes, from), after(|scan| scan.spaces()), "seed {seed}");
    assert_eq!(scan::gap(bytes, from), after(|scan| scan.gap()), "seed {seed}");
    assert_eq!(scan::name(bytes, from), after(|scan| _ = scan.name()), "seed {seed}");
    for at in (from..bytes.len()).filter(|&at| bytes[at] == b'$').take(20) {
        let behind = second::scan::dollar(bytes, at).map(|(_, next)| next);
        assert_eq!(scan::dollar(bytes, at + 1), behind, "seed {seed}");
    }
    let past = bytes.len() + 1 + rng.below(3);
    let end = bytes.len();
    assert_eq!(
        [scan::spaces(bytes, past), scan::gap(bytes, past), scan::name(bytes, past)],
        [end; 3]
    );
    assert_eq!([scan::path(bytes, past), scan::paths(bytes, past)], [Ok(end); 2]);
    assert_eq!([scan::line_end(bytes, past), scan::dollar(bytes, past)], [None; 2]);
}

fn bad(fault: Fault) -> usize {
    match fault {
        Fault::Dollar(place) => place,
        other => panic!("{other:?}"),
    }
}

/// Paths up to the first byte that begins none.
fn paths(manifest: &[u8], from: usize) -> Result<usize, usize> {
    let mut scan = Scanner::new(manifest, from);
    loop {
        scan.gap();
        match scan.peek() {
            None | Some(Class::Colon | Class::Pipe | Class::Newline) => return Ok(scan.at()),
            Some(_) => scan.path().map_err(bad)?,
        };
    }
}

#[derive(Default)]
struct Seen {
    sound_paths: usize,
    bad_paths: usize,
    sound_lists: usize,
    bad_lists: usize,
    sound_values: usize,
    bad_values: usize,
    open: usize,
}

/// What stands in a line behind its first byte, which is no `#`. Where the line's dollars are
/// sound, its end is that of the value that the second planner reads.
fn body(seed: u64, manifest: &[u8], seen: &mut Seen) {
    let end = body_end(manifest);
    assert_eq!(scan::line_end(manifest, 0), end.map(|end| end + 1), "seed {seed}");
    seen.open += usize::from(end.is_none());
    let line = &manifest[..end.unwrap_or(manifest.len())];

    let start = scan::spaces(line, 1);
    let raw = &line[start..];
    let value = Scanner::new(manifest, 1).value().map_err(|fault| bad(fault) - start);
    let ours = scan::bad_dollar(raw).map_or(Ok(raw), Err);
    assert_eq!(ours, value, "seed {seed}");
    seen.sound_values += usize::from(value.is_ok());
    seen.bad_values += usize::from(value.is_err());

    // lists of paths, each from behind the byte that ends the one before
    let mut from = 1;
    while from < line.len() {
        let mut one = Scanner::new(manifest, from);
        let path = one.path().map(|_| one.at()).map_err(bad);
        assert_eq!(scan::path(line, from), path, "seed {seed}");
        let list = paths(manifest, from);
        assert_eq!(scan::paths(line, from), list, "seed {seed}");
        seen.sound_paths += usize::from(path.is_ok());
        seen.bad_paths += usize::from(path.is_err());
        seen.sound_lists += usize::from(list.is_ok());
        seen.bad_lists += usize::from(list.is_err());
        let Ok(stop) = list else { break };
        from = stop + 1;
    }
}

#[test]
fn classes_agree() {
    let number = |class| match class {
        Class::Other => 0,
        Class::Short => 1,
        Class::Dot => 2,
        Class::Space => 3,
        Class::Newline => 4,
        Class::Dollar => 5,
        Class::Colon => 6,
        Class::Pipe => 7,
        Class::Equals => 8,
        Class::Hash => 9,
        Class::Open => 10,
        Class::Close => 11,
        Class::Forbidden => 12,
    };
    for byte in 0..=255 {
        assert_eq!(scan::class(byte), number(class(byte)), "{byte}");
    }
}

#[test]
fn lines_agree() {
    let mut seen = Seen::default();
    for seed in 0..LINES {
        let rng = &mut Rng::new(seed);
        let length = length(rng);
        let mut bytes = bytes(rng, length);
        tokens(seed, rng, &bytes);
        bytes.insert(0, b'a');
        bytes.push(b'\n');
        body(seed, &bytes, &mut seen);
    }
    let all = [
        seen.sound_paths, seen.bad_paths, seen.sound_lists, seen.bad_lists, seen.sound_values,
        seen.bad_values, seen.open,
    ];
    assert!(all.iter().all(|&count| count > 5_000), "{all:?}");
}

#[test]
fn words_agree() {
    const WORDS_OF_NOTE: [&[u8]; 15] = [
        b"", b"rule", b"build", b"default", b"pool", b"include", b"subninja", b"depfile", b"deps",
        b"dyndep", b"msvc_deps_prefix", b"restat", b"rspfile", b"rspfile_content", b"command",
    ];
    let mut refused = [0; 7];
    for seed in 0..WORDS {
        let rng = &mut Rng::new(seed);
        let mut word = rng.pick(&WORDS_OF_NOTE.map(|word| word)).to_vec();
        if rng.chance(40) {
            let at = rng.below(word.len() + 1);
            match rng.below(4) {
                0 if at < word.len() => drop(word.remove(at)),
                1 if at < word.len() => word[at] = b'a' + rng.below(26) as u8,
                2 => word.insert(at, *rng.pick(&[&b'.', &b'-', &b'_', &b's', &b'0'])),
                _ => word.truncate(at),
            }
        }
        let number =
            |read: Result<(), second::Refusal>| read.map_or_else(|refusal| refusal.number, |()| 0);
        let rule = [b"rule ", &word[..], b"\n"].concat();
        assert_eq!(scan::rule_word(&word), number(line::statement(&rule, 0).map(drop)), "{word:?}");
        let key = [b" ", &word[..], b" = x\n"].concat();
        assert_eq!(scan::key_word(&word), number(line::binding(&key, 0).map(drop)), "{word:?}");
        refused[scan::rule_word(&word) as usize] += 1;
        refused[scan::key_word(&word) as usize] += 1;
    }
    assert!([0, 4, 6].iter().all(|&number| refused[number] > 2_000), "{refused:?}");
}

/// The check under 3, as the second planner's reading gives it.
fn faulty(bytes: &[u8]) -> Option<usize> {
    manifest::read(&bundle::alone(bytes))
        .err()
        .filter(|refusal| refusal.number == 3)
        .map(|refusal| refusal.place.value())
}

/// The paths of a list, cut one by one, and where it ends.
fn listed(line: &[u8], mut from: usize) -> (Vec<&[u8]>, usize) {
    let mut paths = Vec::new();
    loop {
        let start = scan::gap(line, from);
        if start == line.len() || line[start] == b':' || line[start] == b'|' {
            assert_eq!(scan::paths(line, from), Ok(start));
            return (paths, start);
        }
        from = scan::path(line, start).expect("a sound path");
        paths.push(&line[start..from]);
    }
}

/// A sound binding line, cut by the proved scanners.
fn binding(line: &[u8]) -> Binding<'_> {
    let start = scan::spaces(line, 0);
    let end = scan::name(line, start);
    let equals = scan::gap(line, end);
    assert_eq!(line[equals], b'=');
    let value = &line[scan::spaces(line, equals + 1)..];
    assert_eq!(scan::bad_dollar(value), None);
    Binding { name: &line[start..end], value }
}

/// A sound build line, cut by the proved scanners.
fn build(line: &[u8]) -> Build<'_> {
    let (outputs, colon) = listed(line, scan::name(line, 0));
    assert_eq!(line[colon], b':');
    let start = scan::gap(line, colon + 1);
    let end = scan::name(line, start);
    let rule = &line[start..end];
    let (explicit, mut at) = listed(line, end);
    let (mut implicit, mut order_only) = (Vec::new(), Vec::new());
    if line[at..].starts_with(b"|") && !line[at..].starts_with(b"||") {
        (implicit, at) = listed(line, at + 1);
    }
    if line[at..].starts_with(b"||") {
        (order_only, at) = listed(line, at + 2);
    }
    assert_eq!(at, line.len());
    Build { outputs, rule, explicit, implicit, order_only }
}

/// A sound line without indent, cut by the proved scanners.
fn statement(line: &[u8]) -> Statement<'_> {
    let word = scan::name(line, 0);
    match &line[..word] {
        b"rule" => {
            let start = scan::gap(line, word);
            let end = scan::name(line, start);
            assert_eq!(scan::gap(line, end), line.len());
            Statement::Rule(&line[start..end])
        }
        b"build" => Statement::Build(build(line)),
        b"default" => Statement::Default(listed(line, word).0),
        b"include" | b"subninja" => {
            let (paths, end) = listed(line, word);
            assert_eq!((paths.len(), end), (1, line.len()));
            Statement::Open(Open { path: paths[0], new_scope: &line[..word] == b"subninja" })
        }
        _ => Statement::Variable(binding(line)),
    }
}

/// The lines of a manifest that ends with a newline, up to one that the second planner refuses.
fn lines(seed: u64, manifest: &[u8], counts: &mut [usize; 4]) {
    let mut start = 0;
    while start < manifest.len() {
        let end = scan::line_end(manifest, start);
        let line = &manifest[start..end.map_or(manifest.len(), |end| end - 1)];
        let opening = line::opening(manifest, start);
        let kind = [Opening::Comment, Opening::Blank, Opening::Indented, Opening::Plain]
            .iter()
            .position(|&kind| kind == opening);
        assert_eq!(Some(usize::from(scan::line_kind(line))), kind, "seed {seed} at {start}");
        counts[usize::from(scan::line_kind(line))] += 1;
        let next = match opening {
            Opening::Comment | Opening::Blank => line::after(manifest, start),
            Opening::Indented => {
                let Ok((theirs, next)) = line::binding(manifest, start) else { return };
                assert_eq!(binding(line), theirs, "seed {seed} at {start}");
                next
            }
            Opening::Plain => {
                let Ok((theirs, next)) = line::statement(manifest, start) else { return };
                assert_eq!(statement(line), theirs, "seed {seed} at {start}");
                next
            }
        };
        assert_eq!(end, Some(next), "seed {seed} at {start}");
        start = next;
    }
}

/// One of the texts of a bundle; its bytes where it is malformed.
fn text(rng: &mut Rng, lent: &[u8]) -> Vec<u8> {
    let Ok(records) = bundle::read(lent) else { return lent.to_vec() };
    records[rng.below(records.len())].text.to_vec()
}

#[test]
fn manifests_agree() {
    let (mut counts, mut sound, mut damaged) = ([0; 4], 0, 0);
    for seed in 0..MANIFESTS {
        let rng = &mut Rng::new(seed);
        let mut manifest = match rng.below(10) {
            0..=1 => {
                let length = length(rng);
                bytes(rng, length)
            }
            _ => text(rng, &generate::ask(seed).lent.bundle),
        };
        if rng.chance(15) && !manifest.is_empty() {
            let at = rng.below(manifest.len());
            manifest[at] = *rng.pick(&[&0, &9, &13, &b'$', &b'\n', &b'#']);
        }
        if manifest.len() <= limits::MANIFEST {
            let fault = faulty(&manifest);
            assert_eq!(scan::bad_byte(&manifest), fault, "seed {seed}");
            sound += usize::from(fault.is_none());
            damaged += usize::from(fault.is_some());
        }
        if manifest.last() == Some(&b'\n') {
            lines(seed, &manifest, &mut counts);
        }
    }
    assert!(
        counts.iter().all(|&count| count > 1_500) && sound > 20_000 && damaged > 5_000,
        "{counts:?} {sound} {damaged}"
    );
}
