//! Random small graphs with times, targets and defaults: circles, phony chains, order-only chains,
//! several outputs, missing files, inputs mentioned twice, inputs that are own outputs, header lists.

use super::headers::written;
use super::split::Files;
use crate::graph::{Graph, Start, Step};
use crate::rng::Rng;

/// A graph and what a plan of it starts from.
#[derive(Debug, Clone)]
pub struct GraphAsk {
    pub graph: Graph,
    pub start: Start,
}

/// A random graph of at most `most_steps` steps.
pub fn graph_ask(rng: &mut Rng, most_steps: usize) -> GraphAsk {
    let graph = graph(rng, most_steps);
    let makers = graph.makers();
    let missing_outputs = rng.below(4) * 30;
    let missing_sources = rng.below(4) * 4;
    let latest = rng.between(1, 5);
    let mut time = |maker: &Option<u32>| {
        let missing = if maker.is_some() { missing_outputs } else { missing_sources };
        let time = rng.between(1, latest) as u64;
        time * u64::from(!rng.chance(missing))
    };
    let times = makers.iter().map(&mut time).collect();
    let files: Vec<u32> = (0..graph.files as u32).collect();
    let outputs: Vec<u32> = graph.steps.iter().flat_map(|step| step.outputs.clone()).collect();
    let targets = if rng.chance(40) { some(rng, &files) } else { Vec::new() };
    let defaults = if rng.chance(40) { some(rng, &outputs) } else { Vec::new() };
    GraphAsk { graph, start: Start { times, targets, defaults } }
}

/// The manifest of a graph, file `n` being named `fn`. The depfile of a step that has a list, or
/// lacks one, is named as its outputs and `.d`.
pub fn manifest(rng: &mut Rng, ask: &GraphAsk) -> Vec<u8> {
    let paths =
        |files: &[u32]| -> String { files.iter().map(|file| format!(" f{file}")).collect() };
    let mut text = String::from("rule cc\n  command = cc $in -o $out\n");
    if ask.graph.steps.iter().any(has_depfile) {
        text += "rule ch\n  command = ch\n  depfile = $out.d\n";
    }
    for step in &ask.graph.steps {
        let rule = match step.phony {
            true => "phony",
            false if has_depfile(step) => "ch",
            false => "cc",
        };
        text += &format!("build{}: {rule}{}", paths(&step.outputs), paths(&step.explicit));
        for (bar, inputs) in [(" |", &step.implicit), (" ||", &step.order_only)] {
            if !inputs.is_empty() || rng.chance(5) {
                text += bar;
                text += &paths(inputs);
            }
        }
        text.push('\n');
    }
    let defaults = &ask.start.defaults;
    if !defaults.is_empty() {
        text += &format!("default{}\n", paths(defaults));
    }
    text.into_bytes()
}

fn has_depfile(step: &Step) -> bool {
    step.lacks_list || !step.listed.is_empty()
}

/// The header lists of a graph that is written as [`manifest`] does it, in no order.
pub fn lists(rng: &mut Rng, ask: &GraphAsk) -> Files {
    let name = |file: &u32| format!("f{file}");
    let mut lists = Files::new();
    for step in ask.graph.steps.iter().filter(|step| !step.listed.is_empty()) {
        let outputs: Vec<String> = step.outputs.iter().map(name).collect();
        let inputs: Vec<String> = step.listed.iter().map(name).collect();
        let inputs: Vec<&[u8]> = inputs.iter().map(String::as_bytes).collect();
        let text = written(rng, outputs[0].as_bytes(), &inputs);
        let path = format!("{}.d", outputs.join(" ")).into_bytes();
        lists.insert(rng.below(lists.len() + 1), (path, text));
    }
    lists
}

/// Outputs for each step and a few sources, then inputs at random. The maker of an input ranks
/// before its step, unless circles are wanted.
fn graph(rng: &mut Rng, most_steps: usize) -> Graph {
    let count = rng.below(most_steps + 1).max(rng.below(most_steps + 1));
    let mut steps = vec![Step::default(); count];
    let mut files = 0;
    for step in &mut steps {
        let outputs = if rng.chance(25) { 2 } else { 1 };
        step.outputs = (files..files + outputs).collect();
        files += outputs;
    }
    let files = files as usize + rng.below(4);
    let mut graph = Graph { steps, files };
    if files > 0 {
        add_inputs(rng, &mut graph);
    }
    graph
}

fn add_inputs(rng: &mut Rng, graph: &mut Graph) {
    let makers = graph.makers();
    let ranks = ranks(rng, graph.steps.len());
    let circles = if rng.chance(25) { 60 } else { 0 };
    let (phony, order_only) = (rng.below(4) * 20, rng.below(4) * 20);
    let (most_inputs, listed) = (rng.between(1, 5), rng.below(3) * 25);
    for (number, step) in graph.steps.iter_mut().enumerate() {
        step.phony = rng.chance(phony);
        for _ in 0..rng.below(most_inputs + 1) {
            let file = rng.below(graph.files);
            let forward = makers[file].is_none_or(|maker| ranks[maker as usize] < ranks[number]);
            if forward || rng.chance(circles) {
                let kind = match rng.below(100) {
                    _ if !step.phony && rng.chance(listed) => &mut step.listed,
                    roll if roll < order_only => &mut step.order_only,
                    roll if roll % 3 == 0 => &mut step.implicit,
                    _ => &mut step.explicit,
                };
                kind.push(file as u32);
            }
        }
        step.lacks_list = !step.phony && step.listed.is_empty() && rng.chance(listed / 5);
    }
}

/// A rank for each step: its number, or any other order.
fn ranks(rng: &mut Rng, steps: usize) -> Vec<usize> {
    let mut ranks: Vec<usize> = (0..steps).collect();
    if rng.chance(60) {
        for place in (1..steps).rev() {
            ranks.swap(place, rng.below(place + 1));
        }
    }
    ranks
}

/// One to three of the files, if there are any.
fn some(rng: &mut Rng, files: &[u32]) -> Vec<u32> {
    let count = if files.is_empty() { 0 } else { rng.between(1, 3) };
    (0..count).map(|_| files[rng.below(files.len())]).collect()
}
