//! The proved card against the second planner's, on cards that are sound, damaged in a field, or
//! random.

use compare::card;
use second::rng::Rng;

const ROUNDS: u64 = 60_000;

/// Names that share starts, so that prefixes and late differences occur.
fn name(rng: &mut Rng) -> Vec<u8> {
    let length = if rng.chance(3) { rng.between(250, 257) } else { rng.between(1, 6) };
    (0..length).map(|_| *rng.pick(&[&b'a', &b'b', &0, &255])).collect()
}

fn records(rng: &mut Rng) -> Vec<(Vec<u8>, u64)> {
    let count = if rng.chance(1) { rng.between(900, 1_030) } else { rng.below(12) };
    let mut records: Vec<(Vec<u8>, u64)> = (0..count)
        .map(|k| {
            let mut name = name(rng);
            if count > 100 {
                name = format!("{k:05}").into_bytes();
            }
            let time = if rng.chance(5) { rng.number() } else { rng.number() >> 1 | 1 };
            (name, time)
        })
        .collect();
    if rng.chance(95) {
        records.sort();
        records.dedup_by(|a, b| a.0 == b.0);
    }
    records
}

/// A card with, at times, a field or a byte changed, bytes added or cut.
fn draw(rng: &mut Rng) -> (Vec<u8>, Vec<(Vec<u8>, u64)>) {
    let records = records(rng);
    let lent: Vec<(&[u8], u64)> =
        records.iter().map(|(name, time)| (name.as_slice(), *time)).collect();
    let mut card = second::card::write(&lent);
    if rng.chance(40) {
        for _ in 0..rng.between(1, 3) {
            let at = if rng.chance(50) { rng.below(16) } else { rng.below(card.len().max(1)) };
            match rng.below(5) {
                0 if at < card.len() => card[at] = card[at].wrapping_add(1),
                1 if at < card.len() => card[at] = card[at].wrapping_sub(1),
                2 if at < card.len() => card[at] = rng.number() as u8,
                3 => card.truncate(at),
                _ => card.push(rng.number() as u8),
            }
        }
    }
    (card, records)
}

#[test]
fn cards_agree() {
    let (mut sound, mut damaged, mut looked_up) = (0, 0, 0);
    for seed in 0..ROUNDS {
        let mut rng = Rng::new(seed);
        let (card, drawn) = draw(&mut rng);
        let read = second::card::read(&card);
        assert_eq!(card::sound(&card), read.is_ok(), "seed {seed}: {card:?}");
        let Ok(listed) = read else {
            damaged += 1;
            assert_eq!(card::time(&card, b"a"), 0, "seed {seed}");
            assert_eq!(card::listed(&card, b"a\nb\n"), 0, "seed {seed}");
            continue;
        };
        sound += 1;
        let mut wanted: Vec<Vec<u8>> = (0..4).map(|_| name(&mut rng)).collect();
        wanted.push(Vec::new());
        wanted.extend(drawn.iter().take(20).map(|(name, _)| name.clone()));
        let good = |name: &Vec<u8>| (1..=255).contains(&name.len()) && !name.contains(&b'\n');
        let list: Vec<&Vec<u8>> = wanted.iter().filter(|name| good(name)).collect();
        let count = list.iter().filter(|name| listed.iter().any(|(listed, _)| listed == *name));
        let bytes: Vec<u8> =
            list.iter().flat_map(|name| name.iter().chain(b"\n")).copied().collect();
        assert_eq!(card::listed(&card, &bytes), count.count(), "seed {seed}");
        for name in wanted {
            let time =
                listed.iter().find(|(listed, _)| *listed == name).map_or(0, |(_, time)| *time);
            assert_eq!(card::time(&card, &name), time, "seed {seed}: {name:?}");
            looked_up += 1;
        }
    }
    assert!(
        sound > 20_000 && damaged > 10_000 && looked_up > 200_000,
        "{sound} {damaged} {looked_up}"
    );
}
