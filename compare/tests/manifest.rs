//! The proved reader of manifests against the second planner's: answers, places, and all that the
//! buffers hold of an accepted bundle. `MANIFESTS` in the environment runs another number of
//! bundles, from seed `FROM` on; `LONG_LINES` another number of those with many outputs.

use compare::manifest::{Accepted, Binding, Buffers, Numbers, LENGTHS};
use compare::settings::setting;
use second::cases::{self, Expected};
use second::generate::{ask, damage, draft::Draft, edges, small_ask};
use second::manifest::{self, Key, Manifest};
use second::rng::Rng;
use second::{bundle, Answer, Refusal};
use std::collections::BTreeMap;

const MANIFESTS: u64 = 120_000;

/// A bundle of any kind; the edges of limits, and damaged bytes, are more frequent than among the
/// random asks.
fn drawn(seed: u64) -> Vec<u8> {
    let rng = &mut Rng::new(seed);
    let mut manifest = match seed % 16 {
        0..=5 => return small_ask(seed).lent.bundle,
        6..=9 => return ask(seed).lent.bundle,
        10 => return bundle::alone(&edges::full(rng)),
        11 => edges::small(rng),
        12 => too_much(rng),
        13 => versions(rng),
        _ => Draft::new(rng).mixed(400),
    };
    damage::edit(rng, &mut manifest);
    bundle::alone(&manifest)
}

/// A manifest of about the most bytes that it may have.
fn too_much(rng: &mut Rng) -> Vec<u8> {
    let mut manifest = Draft::new(rng).mixed(200);
    manifest.push(b'#');
    manifest.resize(second::limits::MANIFEST - 3 + rng.below(8), b' ');
    manifest.push(b'\n');
    manifest
}

/// A manifest that requires a version, mostly a sound one.
fn versions(rng: &mut Rng) -> Vec<u8> {
    let number =
        |rng: &mut Rng| rng.pick(&["0", "1", "1", "01", "12", "13", "14", "4294967296", "", "x"]);
    let version: Vec<&str> = (0..rng.between(1, 4)).map(|_| number(rng)).collect();
    let mut manifest = format!("ninja_required_version = {}\n", version.join(".")).into_bytes();
    manifest.extend(Draft::new(rng).mixed(200));
    manifest
}

/// Some bindings, many of them bound again, and a line of many outputs that refer to them: some
/// outputs are spelt differently and yet the same.
fn long_line(rng: &mut Rng) -> Vec<u8> {
    let name =
        |rng: &mut Rng| format!("{}{}", rng.pick(&["a", "b", "ab", "a.b", "a-"]), rng.below(40));
    let mut manifest = String::new();
    for _ in 0..rng.between(0, 200) {
        manifest += &format!(
            "{}={}{}\n",
            name(rng),
            rng.pick(&["", "x", "y", "xy", "yx", "xxxxxxxxx"]),
            rng.below(3)
        );
    }
    manifest += "build";
    let most = rng.between(1, 12);
    for _ in 0..rng.between(2, 200) {
        manifest += rng.pick(&[" x", " y", " z", " xxxxxxxx", " xxxxxxxxx"]);
        for _ in 0..rng.between(1, most + 1) {
            match rng.below(4) {
                0 => manifest += &format!("${{{}}}", name(rng)),
                1 => manifest += &rng.below(1_000).to_string(),
                _ => manifest += rng.pick(&["x", "y", "xy", "$$", "$ ", "$:", "/"]),
            }
        }
    }
    manifest += ": phony\n";
    manifest.into_bytes()
}

/// The numbers that answer a refusal.
fn refused(refusal: Refusal) -> Numbers {
    let (text, place) = (refusal.place.text(), refusal.place.value());
    Numbers { number: refusal.number.into(), text, place, ..Numbers::default() }
}

/// The numbers that answer an accepted bundle, from what the second planner read, and of ours how
/// many bindings and marks there are.
fn counts(theirs: &Manifest, ours: &Accepted) -> Numbers {
    let parts = theirs
        .graph
        .steps
        .iter()
        .flat_map(|step| [&step.outputs, &step.explicit, &step.implicit, &step.order_only]);
    let paths: Vec<u32> = parts.flatten().copied().collect();
    let keys = ours.rules.iter().flat_map(|rule| &rule.keys);
    let variables = ours.variables.iter().flatten();
    let bindings = variables.chain(keys).chain(ours.blocks.iter().flatten()).count();
    let rules = theirs.rules.len() - 1;
    Numbers {
        number: 0,
        text: 0,
        place: 0,
        files: theirs.files.names.len(),
        steps: theirs.graph.steps.len(),
        paths: paths.len(),
        defaults: theirs.defaults.len(),
        entries: rules + bindings + ours.marks,
        rules,
        bindings,
        mentions: theirs.mentions,
        written: theirs.together,
    }
}

/// All tables of an accepted bundle are the same.
fn compare_tables(ours: &Accepted, theirs: &Manifest, shown: &str) {
    assert!(
        ours.files.iter().copied().eq(theirs.files.names.iter().map(|name| &**name)),
        "files of {shown}"
    );
    assert_eq!(ours.graph, theirs.graph, "{shown}");
    assert_eq!(ours.makers, theirs.graph.makers(), "{shown}");
    assert_eq!(ours.defaults, theirs.defaults, "{shown}");
    assert_eq!(ours.variables.len(), theirs.file_scopes.len(), "{shown}");
    for (number, scope) in theirs.file_scopes.iter().enumerate() {
        let standing: BTreeMap<&[u8], &[u8]> = ours.variables[number].iter().copied().collect();
        let theirs = scope.variables.iter().map(|(&name, value)| (name, &**value)).collect();
        assert_eq!(standing, theirs, "{shown}");
        assert_eq!(ours.parents[number], scope.parent, "{shown}");
    }
    assert_eq!(ours.rules.len() + 1, theirs.rules.len(), "{shown}");
    for (rule, raw) in ours.rules.iter().zip(&theirs.rules[1..]) {
        let keys = [
            (Key::Command, "command"),
            (Key::Depfile, "depfile"),
            (Key::Description, "description"),
            (Key::Generator, "generator"),
        ];
        let theirs = keys.iter().filter_map(|&(key, name)| Some((name.as_bytes(), raw.text(key)?)));
        let mut ours = rule.keys.clone();
        ours.sort();
        assert_eq!(ours, theirs.collect::<Vec<Binding>>(), "{shown}");
    }
    for (step, scope) in theirs.scopes.iter().enumerate() {
        assert_eq!(ours.scope_of[step], scope.file, "{shown}");
        let rule = ours.rule_of[step].map_or(&b"phony"[..], |rule| ours.rules[rule].name);
        assert_eq!(ours.rule_of[step].map_or(0, |rule| rule + 1), scope.rule, "{shown}");
        assert_eq!(theirs.rule_number(rule), Some(scope.rule), "{shown}");
        let block: Vec<Binding> =
            scope.bindings.iter().map(|(name, value)| (*name, &**value)).collect();
        assert_eq!(ours.blocks[step], block, "{shown}");
    }
}

/// The number of the refusal, or 0, after checking that both agree on all.
fn compare(buffers: &mut Buffers, bundle: &[u8]) -> usize {
    let numbers = buffers.read(bundle);
    let shown = &String::from_utf8_lossy(&bundle[..bundle.len().min(1_000)]);
    match manifest::read(bundle) {
        Err(refusal) => assert_eq!(numbers, refused(refusal), "{shown}"),
        Ok(theirs) => {
            assert_eq!((numbers.number, numbers.text, numbers.place), (0, 0, 0), "{shown}");
            let ours = buffers.accepted(&numbers);
            compare_tables(&ours, &theirs, shown);
            assert_eq!(numbers, counts(&theirs, &ours), "{shown}");
        }
    }
    numbers.number
}

#[test]
fn manifests_agree() {
    let (manifests, from) = (setting("MANIFESTS", MANIFESTS), setting("FROM", 0));
    let mut buffers = Buffers::default();
    let mut answers: BTreeMap<usize, u64> = BTreeMap::new();
    for seed in from..from + manifests {
        *answers.entry(compare(&mut buffers, &drawn(seed))).or_default() += 1;
    }
    println!("{manifests} bundles, by answer: {answers:?}");
    assert_eq!(
        answers.keys().copied().collect::<Vec<_>>(),
        [0, 2, 3, 4, 5, 6, 7, 8, 9, 10, 19],
        "{answers:?}"
    );
    assert!(answers.values().all(|&count| count > manifests / 300), "{answers:?}");
}

#[test]
fn long_lines_agree() {
    let mut buffers = Buffers::default();
    let mut answers: BTreeMap<usize, u64> = BTreeMap::new();
    for seed in 0..setting("LONG_LINES", 5_000) {
        *answers
            .entry(compare(&mut buffers, &bundle::alone(&long_line(&mut Rng::new(seed)))))
            .or_default() += 1;
    }
    println!("long lines, by answer: {answers:?}");
    assert!(answers[&0] > 500 && answers[&8] > 500, "{answers:?}");
}

#[test]
fn cases_agree() {
    let cases = cases::read(&cases::files(&cases::folder()).unwrap()).unwrap();
    let mut buffers = Buffers::default();
    let mut refusals: BTreeMap<usize, u64> = BTreeMap::new();
    for case in &cases {
        compare(&mut buffers, &case.lent.bundle);
        for (_, expected) in &case.asks {
            if let Expected::One(Answer::Refused(refusal @ Refusal { number: 2..=10 | 19, .. })) =
                expected
            {
                let said = buffers.read(&case.lent.bundle);
                assert_eq!(said, refused(*refusal), "{} {}", case.origin, case.name);
                *refusals.entry(said.number).or_default() += 1;
            }
        }
    }
    println!("{} cases, by refusal: {refusals:?}", cases.len());
    assert_eq!(
        refusals.keys().copied().collect::<Vec<_>>(),
        [2, 3, 4, 5, 6, 7, 8, 9, 10, 19],
        "{refusals:?}"
    );
}

#[test]
fn shapes_agree() {
    let mut buffers = Buffers::default();
    for shape in second::shapes::all(512) {
        assert_eq!(compare(&mut buffers, &bundle::alone(&shape.manifest)), 0, "{}", shape.name);
    }
}

#[test]
fn short_buffers_are_answered() {
    let bundle = bundle::alone(b"build a: phony\n");
    let small = Numbers { number: 255, ..Numbers::default() };
    for buffer in 0..LENGTHS.len() {
        let mut lengths = LENGTHS;
        lengths[buffer] -= 1;
        let mut buffers = Buffers::new(lengths);
        assert_eq!(buffers.read(&bundle), small);
        assert!(buffers == Buffers::new(lengths), "a buffer of {lengths:?} was touched");
    }
    let longer = LENGTHS.map(|length| length + 1);
    assert_eq!(Buffers::new(longer).read(&bundle).number, 0);
}
