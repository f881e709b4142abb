//! What is asked of a bundle by a texts ask: a list of steps, and buffers at the edges of what their
//! texts need.

use crate::manifest::{self, Manifest};
use crate::rng::Rng;
use crate::{limits, text, Question, Wanted};

/// The most steps of a list.
const MOST: usize = 2_000;

/// Texts of steps of the bundle's manifests.
pub fn texts(rng: &mut Rng, bundle: &[u8], wanted: Wanted) -> Question {
    let manifest = manifest::read(bundle).ok();
    let mut steps = list(rng, manifest.as_ref());
    let mut ends = ends(manifest.as_ref(), &steps, wanted);
    let total = ends.last().copied().unwrap_or(0);
    if total > 0 && ends.len() == steps.len() && rng.chance(60) {
        let times = (limits::TEXT / total + rng.between(1, 2)).min(MOST / steps.len());
        ends = (0..times).flat_map(|time| ends.iter().map(move |end| time * total + end)).collect();
        steps = steps.repeat(times);
    }
    if rng.chance(20) {
        let at = rng.below(steps.len() + 1);
        steps.insert(at, other(rng, manifest.as_ref()));
    }
    let buf_len = bytes_lent(rng, &ends);
    let ends_len = ends_lent(rng, &ends, buf_len);
    Question::Texts { steps, wanted, buf_len, ends_len }
}

/// A few command steps, of a manifest that has any, perhaps one of them several times.
fn list(rng: &mut Rng, manifest: Option<&Manifest>) -> Vec<u32> {
    let steps = manifest.map_or(&[][..], |manifest| &manifest.graph.steps);
    let commands: Vec<u32> =
        (0..).zip(steps).filter(|(_, step)| !step.phony).map(|(number, _)| number).collect();
    let count = [0, 1, 1, 2, 2, 3, 4, 20][rng.below(8)];
    if commands.is_empty() {
        return (0..count).map(|_| other(rng, manifest)).collect();
    }
    (0..count).map(|_| commands[rng.below(commands.len())]).collect()
}

/// Any number: mostly one that is no command step.
fn other(rng: &mut Rng, manifest: Option<&Manifest>) -> u32 {
    let count = manifest.map_or(0, |manifest| manifest.graph.steps.len());
    match rng.below(4) {
        0 => u32::MAX - rng.below(2) as u32,
        1 => rng.number() as u32,
        _ => rng.below(count + 2) as u32,
    }
}

/// Where the texts of the leading steps end that have any.
fn ends(manifest: Option<&Manifest>, steps: &[u32], wanted: Wanted) -> Vec<usize> {
    let Some(manifest) = manifest else { return Vec::new() };
    let lengths = steps
        .iter()
        .map_while(|&step| text::text(manifest, step as usize, wanted).map(|text| text.len()).ok());
    let end = |end: &mut usize, length| {
        *end += length;
        Some(*end)
    };
    lengths.scan(0, end).collect()
}

/// The length of the byte buffer: where some text ends, or a byte beside that.
fn bytes_lent(rng: &mut Rng, ends: &[usize]) -> usize {
    let far: Vec<usize> = ends.iter().copied().filter(|&end| end >= limits::TEXT).collect();
    if far.is_empty() || rng.chance(30) {
        return super::buffer(rng, limits::TEXT);
    }
    far[rng.below(far.len().min(3))] + rng.below(3) - 1
}

/// The length of the buffer for the ends: mostly about as many as there is room for.
fn ends_lent(rng: &mut Rng, ends: &[usize], buf_len: usize) -> usize {
    let fitting = ends.iter().filter(|&&end| end <= buf_len).count();
    match rng.below(10) {
        0 => 0,
        1..=5 => (fitting + rng.below(3)).saturating_sub(1),
        6 => rng.below(ends.len() + 1),
        _ => ends.len() + rng.below(20),
    }
}
