//! The proved target list against the second planner's.

use compare::targets::{self, Target};
use second::rng::Rng;
use second::Refusal;
use std::cell::RefCell;

const LISTS: u64 = 40_000;

fn list(rng: &mut Rng) -> Vec<u8> {
    let names = if rng.chance(2) { rng.between(100, 900) } else { rng.below(6) };
    let mut list = Vec::new();
    for _ in 0..names {
        let length = match rng.below(100) {
            0 => 0,
            1..=4 => rng.between(253, 258),
            _ => rng.between(1, 9),
        };
        list.extend((0..length).map(|_| *rng.pick(&[&b'a', &b' ', &b'$', &0, &255])));
        list.push(b'\n');
    }
    if rng.chance(10) {
        list.pop();
    }
    if rng.chance(2) {
        list.resize(rng.between(4_090, 4_100), b'x');
        list.push(b'\n');
    }
    list
}

/// The names of a list that is sound, or the place of its 12 where every name is one that the
/// manifest mentions.
fn read(list: &[u8]) -> Result<Vec<&[u8]>, usize> {
    if targets::malformed(list) {
        return Err(0);
    }
    let (mut names, mut from) = (Vec::new(), 0);
    loop {
        match targets::at(list, from) {
            Target::End => return Ok(names),
            Target::Bad => return Err(from),
            Target::Name(end) => {
                names.push(&list[from..end]);
                from = end + 1;
            }
        }
    }
}

#[test]
fn lists_agree() {
    let (mut sound, mut bad, mut bad_names) = (0, 0, 0);
    for seed in 0..LISTS {
        let list = list(&mut Rng::new(seed));
        let asked = RefCell::new(Vec::new());
        let numbers = second::targets::read(&list, |name| {
            asked.borrow_mut().push(name.to_vec());
            Some(0)
        });
        match (read(&list), numbers) {
            (Ok(names), Ok(numbers)) => {
                assert_eq!(names, *asked.borrow(), "seed {seed}");
                assert_eq!(names.len(), numbers.len(), "seed {seed}");
                sound += 1;
            }
            (ours, theirs) => {
                assert_eq!(
                    ours.map(drop).map_err(|place| Refusal::new(12, place)),
                    theirs.map(drop),
                    "seed {seed}: {list:?}"
                );
                bad += 1;
                bad_names += usize::from(!targets::malformed(&list));
            }
        }
        assert_eq!(targets::at(&list, list.len() + 1), Target::End);
    }
    assert!(sound > 20_000 && bad > 4_000 && bad_names > 1_000, "{sound} {bad} {bad_names}");
}
