//! The section "Needed and stale" of document 01 transcribed sentence by sentence, by brute force,
//! with what document 02, [4] adds to it of header lists, to compare the planning with. It shares
//! nothing with it but the graph.

use crate::graph::{Graph, Start, Step};
use crate::{Answer, Refusal};
use std::collections::BTreeSet;

type Steps = BTreeSet<u32>;

/// What the sentences say of a graph. There is no answer where the needed steps have no order: any
/// true circle of theirs will do then.
pub fn plan(graph: &Graph, start: &Start) -> Option<Answer> {
    let card = &start.times;
    let targets = roots(graph, start);
    if !graph.steps.is_empty() && targets.is_empty() {
        return Some(Answer::Refused(Refusal::new(13, 0)));
    }
    let needed = needed(graph, &targets);
    if !has_order(graph, &needed) {
        return None;
    }
    if let Some(file) = sources(graph, &targets, &needed).into_iter().find(|&f| missing(card, f)) {
        return Some(Answer::Refused(Refusal::new(15, file as usize)));
    }
    let stale = stale(graph, card, &needed);
    let commands = stale.into_iter().filter(|&step| !at(graph, step).phony).collect();
    Some(Answer::List(list(graph, &commands)))
}

/// Whether these are one or more needed steps, none twice, each having an input made by the next,
/// the last by the first.
pub fn is_circle(graph: &Graph, needed: &Steps, circle: &[u32]) -> bool {
    let once: Steps = circle.iter().copied().collect();
    let next = circle.iter().cycle().skip(1);
    !circle.is_empty()
        && once.len() == circle.len()
        && once.is_subset(needed)
        && circle.iter().zip(next).all(|(&step, next)| makers_of_inputs(graph, step).contains(next))
}

/// "Empty list: the defaults; without defaults, every output that is no step's input", and
/// "default roots and 13 go by written inputs".
pub fn roots(graph: &Graph, start: &Start) -> Vec<u32> {
    if !start.targets.is_empty() {
        return start.targets.clone();
    }
    if !start.defaults.is_empty() {
        return start.defaults.clone();
    }
    let is_input = |file| graph.steps.iter().any(|step| written(step).contains(&file));
    (0..graph.files as u32)
        .filter(|&file| maker(graph, file).is_some() && !is_input(file))
        .collect()
}

/// "Needed is the maker of each target and of every input, of any kind, of a needed step."
pub fn needed(graph: &Graph, targets: &[u32]) -> Steps {
    let of_targets = targets.iter().filter_map(|&file| maker(graph, file)).collect();
    closed(of_targets, |step| makers_of_inputs(graph, step))
}

fn at(graph: &Graph, step: u32) -> &Step {
    &graph.steps[step as usize]
}

fn maker(graph: &Graph, file: u32) -> Option<u32> {
    let place = graph.steps.iter().position(|step| step.outputs.contains(&file));
    place.map(|step| step as u32)
}

fn written(step: &Step) -> Vec<u32> {
    [&step.explicit[..], &step.implicit, &step.order_only].concat()
}

/// "Names after the colon count as implicit inputs after the written ones."
fn not_order_only(step: &Step) -> Vec<u32> {
    [&step.explicit[..], &step.implicit, &step.listed].concat()
}

fn makers_of_inputs(graph: &Graph, step: u32) -> Steps {
    let step = at(graph, step);
    let inputs = written(step).into_iter().chain(not_order_only(step));
    inputs.filter_map(|file| maker(graph, file)).collect()
}

/// The least set of steps that holds the given ones and what each of its steps leads to.
fn closed(mut steps: Steps, leads_to: impl Fn(u32) -> Steps) -> Steps {
    loop {
        let more: Steps = steps.iter().flat_map(|&step| leads_to(step)).collect();
        if more.is_subset(&steps) {
            return steps;
        }
        steps.extend(more);
    }
}

/// "Upstream of a step are the makers of its inputs, of any kind, and whatever is upstream of
/// those, through fresh and phony steps too."
fn upstream(graph: &Graph, step: u32) -> Steps {
    closed(makers_of_inputs(graph, step), |step| makers_of_inputs(graph, step))
}

/// An order of the needed steps has each one after the makers of all its inputs: build it as far
/// as it goes.
fn has_order(graph: &Graph, needed: &Steps) -> bool {
    let mut placed = Steps::new();
    loop {
        let fits = |step: &&u32| makers_of_inputs(graph, **step).is_subset(&placed);
        let now: Steps = needed.iter().filter(fits).copied().collect();
        if now == placed {
            return placed == *needed;
        }
        placed = now;
    }
}

/// "A needed source is a file without a maker that is a target or an input of a needed step", of
/// which a missing listed file "by itself is no needed source".
fn sources(graph: &Graph, targets: &[u32], needed: &Steps) -> BTreeSet<u32> {
    let inputs = needed.iter().flat_map(|&step| written(at(graph, step)));
    let files = inputs.chain(targets.iter().copied());
    files.filter(|&file| maker(graph, file).is_none()).collect()
}

/// "A file not listed is missing and has time 0."
fn missing(card: &[u64], file: u32) -> bool {
    card[file as usize] == 0
}

/// "A phony output that is missing has the greatest time of the step's non-order-only inputs, 0 if
/// none. Every other file has the card's time."
fn times(graph: &Graph, card: &[u64]) -> Vec<u64> {
    let mut times = card.to_vec();
    loop {
        let mut next = card.to_vec();
        for step in graph.steps.iter().filter(|step| step.phony) {
            let greatest = not_order_only(step).iter().map(|&file| times[file as usize]).max();
            for &output in step.outputs.iter().filter(|&&file| missing(card, file)) {
                next[output as usize] = greatest.unwrap_or(0);
            }
        }
        if next == times {
            return times;
        }
        times = next;
    }
}

/// The stale ones of the needed steps: the least set that the two sentences on staleness allow.
fn stale(graph: &Graph, card: &[u64], needed: &Steps) -> Steps {
    let times = times(graph, card);
    let mut stale = Steps::new();
    loop {
        let is_stale = |step: &&u32| {
            let step = at(graph, **step);
            let mut makers = not_order_only(step).into_iter().filter_map(|file| maker(graph, file));
            makers.any(|maker| stale.contains(&maker))
                || if step.phony {
                    phony_is_stale(step, card)
                } else {
                    is_old(step, card, &times) || lacks_headers(graph, step, card)
                }
        };
        let now: Steps = needed.iter().filter(is_stale).copied().collect();
        if now == stale {
            return stale;
        }
        stale = now;
    }
}

/// "... an output is missing, or an output's time is below the time of some non-order-only input."
fn is_old(step: &Step, card: &[u64], times: &[u64]) -> bool {
    let below = |output: u32, input: u32| times[output as usize] < times[input as usize];
    let dated = not_order_only(step);
    step.outputs
        .iter()
        .any(|&output| missing(card, output) || dated.iter().any(|&input| below(output, input)))
}

/// "A missing depfile makes its step stale; so does a missing listed file without a maker".
fn lacks_headers(graph: &Graph, step: &Step, card: &[u64]) -> bool {
    let lacks = |file: &u32| missing(card, *file) && maker(graph, *file).is_none();
    step.lacks_list || step.listed.iter().any(lacks)
}

/// "... or if it has no inputs at all and an output is missing."
fn phony_is_stale(step: &Step, card: &[u64]) -> bool {
    written(step).is_empty() && step.outputs.iter().any(|&output| missing(card, output))
}

/// "At each place stands the lowest-numbered of them not yet listed whose stale command steps
/// upstream are all listed."
fn list(graph: &Graph, stale_commands: &Steps) -> Vec<u32> {
    let mut list = Vec::new();
    while list.len() < stale_commands.len() {
        let listed_upstream = |step: u32| {
            upstream(graph, step).intersection(stale_commands).all(|other| list.contains(other))
        };
        let mut left = stale_commands.iter().filter(|step| !list.contains(step));
        let next = left.find(|&&step| listed_upstream(step));
        list.push(*next.expect("needed steps have an order"));
    }
    list
}
