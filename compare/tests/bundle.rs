//! The proved bundle against the second planner's reading, on bundles that are sound or damaged in
//! one of the ways that the layout has.

use compare::bundle;
use second::bundle::{write, Bundle, HEADERS, MANIFEST};
use second::rng::Rng;

const BUNDLES: u64 = 200_000;

/// Names that share starts, so that prefixes and late differences occur.
fn name(rng: &mut Rng) -> Vec<u8> {
    let length = match rng.below(40) {
        0 => 0,
        1 => rng.between(254, 256),
        _ => rng.between(1, 5),
    };
    (0..length).map(|_| *rng.pick(&[&b'a', &b'b', &0, &255])).collect()
}

/// How many records: mostly few, at times about the two limits.
fn count(rng: &mut Rng) -> usize {
    match rng.below(400) {
        0 => rng.between(511, 513),
        1..=8 => rng.between(63, 65),
        _ => rng.below(7),
    }
}

fn records(rng: &mut Rng) -> Vec<(Vec<u8>, Vec<u8>)> {
    let count = count(rng);
    (0..count)
        .map(|k| {
            let mut name = name(rng);
            if count > 7 && !rng.chance(1) {
                name = format!("{:03}", (k * 7) % 1_000).into_bytes();
            }
            let length = if rng.chance(20) { 0 } else { rng.below(9) };
            (name, (0..length).map(|_| rng.number() as u8).collect())
        })
        .collect()
}

/// Changes the number of 4 bytes at `at` by one, up or down.
fn nudge(bytes: &mut [u8], at: usize, rng: &mut Rng) {
    let Some(four) = bytes.get_mut(at..at + 4) else { return };
    let number = u32::from_le_bytes((&*four).try_into().unwrap());
    let other = if rng.chance(50) { number.wrapping_add(1) } else { number.wrapping_sub(1) };
    four.copy_from_slice(&other.to_le_bytes());
}

/// Damages a bundle. What was done to it, by a number.
fn damage(bytes: &mut Vec<u8>, rng: &mut Rng) -> usize {
    let count = u32::from_le_bytes(bytes[..4].try_into().unwrap()) as usize;
    let row = 16 + 16 * rng.below(count.max(1));
    let kind = rng.below(10);
    match kind {
        // a number of the header, the total length among them
        0 => nudge(bytes, 4 * rng.below(4), rng),
        1 => nudge(bytes, 12, rng),
        // a name's offset, its length, a text's offset, its length
        2 => nudge(bytes, row, rng),
        3 => nudge(bytes, row + 4, rng),
        4 => nudge(bytes, row + 8, rng),
        5 => nudge(bytes, row + 12, rng),
        // a byte more within or behind, with the total length told: a gap, or one left over
        6 => {
            bytes.insert(rng.between(16 + 16 * count, bytes.len()), b'g');
            let total = bytes.len() as u32;
            bytes[12..16].copy_from_slice(&total.to_le_bytes());
        }
        // a byte less, with the total length told: an overlap
        7 if bytes.len() > 16 + 16 * count => {
            bytes.remove(rng.between(16 + 16 * count, bytes.len() - 1));
            let total = bytes.len() as u32;
            bytes[12..16].copy_from_slice(&total.to_le_bytes());
        }
        // cut off, or any byte changed
        8 => bytes.truncate(rng.below(bytes.len() + 1)),
        _ => {
            let at = rng.below(bytes.len());
            bytes[at] = rng.number() as u8;
        }
    }
    kind
}

/// All that the proved functions say of these bytes, against the second reading.
fn agree(bytes: &[u8], rng: &mut Rng, seed: u64) -> [bool; 2] {
    let sound = [MANIFEST, HEADERS].map(|limits| {
        let read = Bundle::read(bytes, limits);
        let records = read.as_ref().map(|bundle| bundle.records.len());
        assert_eq!(bundle::count(bytes, limits), records, "seed {seed}: {bytes:?}");
        read.is_some()
    });
    let Some(read) = Bundle::read(bytes, HEADERS) else {
        assert_eq!(bundle::find(bytes, b"a"), None, "seed {seed}");
        assert!(!bundle::has_text(bytes, 0, b""), "seed {seed}");
        return sound;
    };
    let paths = (0..3).map(|_| name(rng));
    let known = read.records.iter().take(8).map(|(name, _)| name.to_vec());
    for path in paths.chain(known) {
        assert_eq!(bundle::find(bytes, &path), Some(read.find(&path)), "seed {seed}: {path:?}");
    }
    for (k, (_, text)) in read.records.iter().enumerate().take(8) {
        assert_eq!(bundle::has_text(bytes, k, text), sound[0], "seed {seed}: text {k}");
        assert!(!bundle::has_text(bytes, k, &[text, &b"x"[..]].concat()), "seed {seed}: text {k}");
    }
    assert!(!bundle::has_text(bytes, read.records.len(), b""), "seed {seed}");
    if sound[0] {
        places_agree(bytes, &read, seed);
    }
    sound
}

/// Every place of the texts, each text's end among them, and the one past them all.
fn places_agree(bytes: &[u8], read: &Bundle, seed: u64) {
    let mut place = 0;
    for (k, (_, text)) in read.records.iter().enumerate().take(8) {
        assert_eq!(bundle::base(bytes, k), read.base(k), "seed {seed}: text {k}");
        for at in place..=place + text.len() {
            assert_eq!(bundle::text_of(bytes, at), Some(Some(k)), "seed {seed}: place {at}");
        }
        place += text.len() + 1;
    }
    let past = read.base(read.records.len());
    assert_eq!(bundle::text_of(bytes, past), Some(None), "seed {seed}: place {past}");
}

#[test]
fn bundles_agree() {
    let mut sound = [0; 2];
    let mut damaged = [0; 10];
    for seed in 0..BUNDLES {
        let mut rng = Rng::new(seed);
        let records = records(&mut rng);
        let lent: Vec<(&[u8], &[u8])> =
            records.iter().map(|(name, text)| (name.as_slice(), text.as_slice())).collect();
        let mut bytes = write(&lent);
        if rng.chance(60) {
            damaged[damage(&mut bytes, &mut rng)] += 1;
        }
        let said = agree(&bytes, &mut rng, seed);
        sound.iter_mut().zip(said).for_each(|(count, sound)| *count += usize::from(sound));
    }
    assert!(sound.iter().all(|&count| count > 20_000), "{sound:?}");
    assert!(damaged.iter().all(|&count| count > 5_000), "{damaged:?}");
}

/// The limits of both kinds of bundle, and of a name, one short of them and one past them.
#[test]
fn limits_agree() {
    let mut rng = Rng::new(1);
    for count in [0, 1, 2, 63, 64, 65, 511, 512, 513] {
        let names: Vec<String> = (0..count).map(|k| format!("f{k}")).collect();
        let lent: Vec<(&[u8], &[u8])> =
            names.iter().map(|name| (name.as_bytes(), &b"text\n"[..])).collect();
        let sound = agree(&write(&lent), &mut rng, count);
        assert_eq!(sound, [(1..=64).contains(&count), count <= 512], "{count}");
    }
    for length in [0, 1, 254, 255, 256] {
        let name = vec![b'n'; length];
        let sound = agree(&write(&[(&name, b"text\n")]), &mut rng, length as u64);
        assert_eq!(sound[0], (1..=255).contains(&length), "{length}");
    }
}

/// One record written, with room to spare, with none, and with one byte too few.
#[test]
fn wraps_agree() {
    for seed in 0..2_000 {
        let mut rng = Rng::new(seed);
        let name = name(&mut rng);
        let text: Vec<u8> = (0..rng.below(300)).map(|_| rng.number() as u8).collect();
        let bytes = write(&[(&name, &text)]);
        for room in [bytes.len() + 3, bytes.len(), bytes.len() - 1] {
            let mut out = vec![7; room];
            let length = bundle::wrap(&name, &text, &mut out);
            if room < bytes.len() {
                assert_eq!((length, out), (0, vec![7; room]), "seed {seed}");
                continue;
            }
            assert_eq!(length, bytes.len(), "seed {seed}");
            assert_eq!(out[..length], bytes, "seed {seed}");
            assert!(out[length..].iter().all(|&byte| byte == 7), "seed {seed}");
        }
    }
}
