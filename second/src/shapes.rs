//! Graph shapes to measure planning on: a chain, a fan and a lattice, each with a card by which
//! all steps are fresh and one by which all are stale.

use crate::{card, Ask, Lent};

/// A manifest of one shape, and its two cards.
pub struct Shape {
    pub name: &'static str,
    pub manifest: Vec<u8>,
    pub fresh: Vec<u8>,
    pub stale: Vec<u8>,
}

impl Shape {
    /// The plans by either card, with what they find the steps to be.
    pub fn plans(&self) -> [(&'static str, Ask); 2] {
        [("fresh", &self.fresh), ("stale", &self.stale)].map(|(age, card)| {
            (age, Ask::plan(Lent { card: card.clone(), ..Lent::alone(&self.manifest) }))
        })
    }
}

/// The width of a lattice, and how many steps of the layer before each of its steps takes.
const WIDTH: usize = 16;
const TAKEN: usize = 4;

/// All shapes with that many steps, one at least.
pub fn all(steps: usize) -> [Shape; 3] {
    [chain(steps), fan(steps), lattice(steps)]
}

/// Each step takes the output of the one before.
pub fn chain(steps: usize) -> Shape {
    shape("chain", steps, |step| match step {
        0 => vec![source(0)],
        _ => vec![output(step - 1)],
    })
}

/// The last step takes the outputs of all others, which take a source each.
pub fn fan(steps: usize) -> Shape {
    shape("fan", steps, |step| match step {
        _ if step + 1 == steps => (0..step).map(output).chain([source(0)]).collect(),
        _ => vec![source(step)],
    })
}

/// Layers of steps, each of which takes neighbouring outputs of the layer before, round the edge.
pub fn lattice(steps: usize) -> Shape {
    shape("lattice", steps, |step| match step.checked_sub(WIDTH) {
        None => vec![source(step)],
        Some(above) => {
            let layer = above - above % WIDTH;
            (0..TAKEN).map(|next| output(layer + (above + next) % WIDTH)).collect()
        }
    })
}

fn output(step: usize) -> String {
    format!("o{step}")
}

fn source(number: usize) -> String {
    format!("s{number}")
}

fn shape(name: &'static str, steps: usize, inputs: impl Fn(usize) -> Vec<String>) -> Shape {
    let mut manifest = String::from("rule cc\n  command = cc $in -o $out\n");
    let mut files: Vec<String> = Vec::new();
    for step in 0..steps {
        let inputs = inputs(step);
        manifest += &format!("build {}: cc {}\n", output(step), inputs.join(" "));
        files.push(output(step));
        files.extend(inputs);
    }
    files.sort();
    files.dedup();
    Shape {
        name,
        manifest: manifest.into_bytes(),
        fresh: times(&files, 5),
        stale: times(&files, 9),
    }
}

/// A card with these files: outputs at 7, sources at the given time.
fn times(files: &[String], sources: u64) -> Vec<u8> {
    let time = |file: &str| if file.starts_with('s') { sources } else { 7 };
    let records: Vec<_> = files.iter().map(|file| (file.as_bytes(), time(file))).collect();
    card::write(&records)
}

#[cfg(test)]
mod tests {
    use super::*;
    use crate::{limits, Answer};

    #[test]
    fn all_steps_are_fresh_or_stale() {
        for steps in [1, 2, 17, limits::STEPS] {
            for shape in all(steps) {
                let lists = shape.plans().map(|(_, ask)| ask.answer());
                let stale = (0..steps as u32).collect();
                assert_eq!(lists, [vec![], stale].map(Answer::List), "{}", shape.name);
            }
        }
    }
}
