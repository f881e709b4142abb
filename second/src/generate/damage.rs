//! What surrounds a manifest in an ask, sound or damaged: time cards, target lists, edited bytes.

use crate::headers::Headers;
use crate::rng::Rng;
use crate::{card, limits, manifest};

/// Names to fall back on where a manifest can't be read.
const NAMES: &[&str] = &["a", "b", "c", "o0", "o1", "f0", "f1"];

/// What gets into a manifest by mistake.
const SCRAPS: &[&str] = &[
    "$", "$\n", "\n", " ", "  ", "|", "||", ":", "=", "#", "{", "}", "${", ".", "$$", "x", "a",
    "$in", "\t", "\r", "\0", "\u{e9}", "rule ", "build ", "default ", "phony", "command",
    "include ", "subninja ", "include a\n",
];

/// A file as the manifest tells of it.
struct File {
    name: Vec<u8>,
    made: bool,
}

/// The files that the manifests of a bundle mention, if they can be read, and behind them those that
/// header lists name.
fn files(bundle: &[u8], headers: &[u8]) -> Vec<File> {
    let Ok(mut manifest) = manifest::read(bundle) else {
        let known = |name: &&str| File { name: name.as_bytes().to_vec(), made: false };
        return NAMES.iter().map(known).collect();
    };
    // where a list is refused, those before it have been added
    let _ = Headers::read(headers).and_then(|headers| headers.add_to(&mut manifest));
    let makers = manifest.graph.makers();
    let names = manifest.files.names.iter().zip(makers);
    names.map(|(name, maker)| File { name: name.to_vec(), made: maker.is_some() }).collect()
}

/// Edits the bytes of a manifest in a few places.
pub fn edit(rng: &mut Rng, manifest: &mut Vec<u8>) {
    edit_by(rng, manifest, SCRAPS);
}

/// Edits the bytes of a text in a few places, by what gets into it.
pub fn edit_by(rng: &mut Rng, manifest: &mut Vec<u8>, scraps: &[&'static str]) {
    for _ in 0..rng.between(1, 3) {
        let at = rng.below(manifest.len() + 1);
        let end = (at + rng.below(3)).min(manifest.len());
        match rng.below(10) {
            0 => manifest.truncate(at),
            1..=3 => drop(manifest.drain(at..end)),
            4 => {
                let copied = manifest[..at].to_vec();
                let line = copied.rsplit(|&byte| byte == b'\n').next().unwrap_or_default();
                manifest.splice(at..at, line.iter().copied());
            }
            _ => {
                let scrap = rng.pick(scraps);
                let end = if rng.chance(50) { at } else { end };
                manifest.splice(at..end, scrap.bytes());
            }
        }
    }
}

/// A step of the bundle's manifests, mostly a command step if there is one.
pub fn step(rng: &mut Rng, bundle: &[u8]) -> usize {
    let steps = manifest::read(bundle).map_or(Vec::new(), |manifest| manifest.graph.steps);
    let commands: Vec<usize> = (0..steps.len()).filter(|&step| !steps[step].phony).collect();
    if commands.is_empty() || rng.chance(8) {
        rng.below(steps.len() + 2)
    } else {
        commands[rng.below(commands.len())]
    }
}

/// A time card that lists most of the files mentioned; one in twelve is damaged.
pub fn card(rng: &mut Rng, bundle: &[u8], headers: &[u8]) -> Vec<u8> {
    let missing_outputs = rng.below(4) * 25;
    let missing_sources = rng.below(4) * 6;
    let latest = rng.between(1, 4);
    let mut records: Vec<(Vec<u8>, u64)> = Vec::new();
    for file in files(bundle, headers) {
        let missing = if file.made { missing_outputs } else { missing_sources };
        if !rng.chance(missing) && records.len() < limits::RECORDS {
            records.push((file.name, rng.between(1, latest) as u64));
        }
    }
    if rng.chance(10) {
        records.push((b"unmentioned".to_vec(), 1));
    }
    records.sort();
    if rng.chance(4) {
        damage_records(rng, &mut records);
    }
    let records: Vec<_> = records.iter().map(|(name, time)| (name.as_slice(), *time)).collect();
    let mut card = card::write(&records);
    if rng.chance(4) {
        damage_card(rng, &mut card);
    }
    card
}

fn damage_records(rng: &mut Rng, records: &mut Vec<(Vec<u8>, u64)>) {
    let at = rng.below(records.len() + 1);
    let name = |length: usize| vec![b'z'; length];
    match rng.below(8) {
        0 => records.insert(at, (Vec::new(), 1)),
        1 => records.push((name(limits::PATH + rng.below(2)), 1)),
        2 => records.push((name(2), 0)),
        3 => records.push((name(2), limits::TIME + rng.below(2) as u64)),
        4 => records.extend([(name(2), 3), (name(1 + rng.below(3)), 3)]),
        5 => records.reverse(),
        6 => {
            let count = limits::RECORDS + rng.below(2);
            *records = (0..count).map(|n| (format!("{n:04}").into_bytes(), 1)).collect();
        }
        _ => {
            // 180 names of 255 bytes and one of the rest: a card as long as may be, or longer.
            *records = (0..180).map(|n| (format!("{n:0255}").into_bytes(), 1)).collect();
            let rest = limits::CARD - 16 - 181 * 16 - 180 * 255 + rng.below(2);
            records.push((name(rest), 1));
        }
    }
}

fn damage_card(rng: &mut Rng, card: &mut Vec<u8>) {
    let at = rng.below(card.len());
    match rng.below(5) {
        0 => card.truncate(at),
        1 => card.push(b'z'),
        2 => card.clear(),
        3 => card[at] = card[at].wrapping_add(1),
        _ => {
            let field = rng.below(8).min(card.len() / 4 - 1) * 4;
            card[field] = card[field].wrapping_sub(1);
        }
    }
}

/// A target list: none, or some of the files mentioned; one in ten is damaged.
pub fn targets(rng: &mut Rng, bundle: &[u8], headers: &[u8]) -> Vec<u8> {
    // what only a list names is no target
    let files = files(bundle, if rng.chance(5) { headers } else { &[] });
    let mut targets = Vec::new();
    let count = if files.is_empty() { 0 } else { [0, 0, 1, 1, 2, 3][rng.below(6)] };
    for _ in 0..count {
        targets.extend_from_slice(&files[rng.below(files.len())].name);
        targets.push(b'\n');
    }
    if rng.chance(8) {
        damage_targets(rng, &mut targets);
    }
    targets
}

fn damage_targets(rng: &mut Rng, targets: &mut Vec<u8>) {
    match rng.below(6) {
        0 => targets.extend(b"unmentioned\n"),
        1 => targets.push(b'\n'),
        2 => drop(targets.pop()),
        3 => targets.extend(b"a"),
        4 => {
            targets.extend(vec![b'z'; limits::PATH + rng.below(2)]);
            targets.push(b'\n');
        }
        _ => {
            let line = targets.clone();
            let line = if line.is_empty() { b"a\n".to_vec() } else { line };
            let length = limits::TARGETS + rng.below(2);
            targets.extend(line.into_iter().cycle().take(length.saturating_sub(targets.len())));
        }
    }
}
