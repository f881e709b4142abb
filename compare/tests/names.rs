//! The proved table of names against a map, as the second planner has one.

use compare::names::{one_bucket, orders, Added, Names};
use second::rng::Rng;
use std::collections::HashMap;

const TABLES: u64 = 4_000;

fn path(rng: &mut Rng) -> Vec<u8> {
    let length = if rng.chance(2) { rng.between(200, 255) } else { rng.between(1, 4) };
    (0..length).map(|_| *rng.pick(&[&b'a', &b'b', &0, &255])).collect()
}

#[test]
fn tables_agree() {
    let (mut old, mut new, mut full) = (0, 0, 0);
    for seed in 0..TABLES {
        let rng = &mut Rng::new(seed);
        let long = rng.chance(1);
        let bytes = if long { 60_000 } else { rng.below(400) };
        let mut map: HashMap<Vec<u8>, usize> = HashMap::new();
        let (mut list, mut expected, mut written) = (Vec::new(), Vec::new(), 0);
        for turn in 0..if long { 1_500 } else { 60 } {
            let path =
                if long && rng.chance(80) { format!("{turn}").into_bytes() } else { path(rng) };
            list.extend(path.iter().chain(b"\n"));
            let room = map.len() < 1_024 && written + path.len() <= bytes;
            match map.get(&path) {
                Some(&number) => expected.push(Added::Old(number)),
                None if room => {
                    expected.push(Added::New(map.len()));
                    written += path.len();
                    map.insert(path, map.len());
                }
                None => expected.push(Added::Full),
            }
        }
        // every name once more
        for (path, &number) in &map {
            list.extend(path.iter().chain(b"\n"));
            expected.push(Added::Old(number));
        }
        let answers = if rng.chance(10) { rng.below(expected.len()) } else { expected.len() };
        let mut names = Names::new(bytes, answers);
        assert_eq!(names.add(&list), Some(answers), "seed {seed}");
        for (k, &answer) in expected[..answers].iter().enumerate() {
            assert_eq!(names.answer(k), answer, "seed {seed}: name {k}");
            match answer {
                Added::Old(_) => old += 1,
                Added::New(_) => new += 1,
                Added::Full => full += 1,
            }
        }
    }
    assert!(old > 50_000 && new > 50_000 && full > 20_000, "{old} {new} {full}");
}

/// 1,024 names and one too many, then all of them again: in a bucket of their own, and in all buckets.
#[test]
fn full_tables_in_any_order() {
    let spread: Vec<Vec<u8>> = (0..1_025).map(|k| format!("src/{k:05}.c").into_bytes()).collect();
    for names in [one_bucket(1_025), spread] {
        for (order, names) in orders(&names) {
            let list: Vec<u8> =
                names.iter().chain(&names).flat_map(|name| [name, &b"\n"[..]].concat()).collect();
            let mut table = Names::new(60_000, 2_050);
            assert_eq!(table.add(&list), Some(2_050), "{order}");
            for k in 0..1_024 {
                assert_eq!(table.answer(k), Added::New(k), "{order}: name {k}");
                assert_eq!(table.answer(1_025 + k), Added::Old(k), "{order}: name {k} again");
            }
            assert_eq!([1_024, 2_049].map(|k| table.answer(k)), [Added::Full; 2], "{order}");
        }
    }
}

#[test]
fn names_of_a_bad_length_end_the_list() {
    let long = "n".repeat(256);
    let mut names = Names::new(100, 8);
    for (list, added) in [
        ("", 0),
        ("a", 0),
        ("a\nb", 1),
        ("a\n\nb\n", 1),
        (&format!("a\n{long}\nb\n"), 1),
        ("a\nb\na\n", 3),
    ] {
        assert_eq!(names.add(list.as_bytes()), Some(added), "{list:?}");
    }
    assert_eq!([0, 1, 2].map(|k| names.answer(k)), [Added::New(0), Added::New(1), Added::Old(0)]);
}
