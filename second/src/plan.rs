//! Planning: roots, header lists, needed steps, circle or order, needed sources, staleness and the
//! list; refusals 11 to 13, those of the lists, 14 and 15 in this order.

use crate::graph::{Graph, Start, Step};
use crate::headers::Headers;
use crate::manifest::{self, Manifest};
use crate::{bundle, card, targets, Answer, Lent, Refusal};
use std::cmp::Reverse;
use std::collections::BinaryHeap;

/// Reads the two bundles of a plan: refusals 19 and 20 at place 0, then 2 to 10 and 19 at a line.
pub fn read(lent: &Lent) -> Result<(Manifest<'_>, Headers<'_>), Refusal> {
    let records = bundle::read(&lent.bundle)?;
    let headers = Headers::read(&lent.headers)?;
    Ok((manifest::of(records)?, headers))
}

/// Plans a manifest, which has been read, with what else is lent. The header lists are added to it
/// behind 13: targets and roots go by what is written (reading 02.17).
pub fn plan<'a>(
    manifest: &mut Manifest<'a>,
    headers: &Headers<'a>,
    lent: &Lent,
) -> Result<Answer, Refusal> {
    let card = card::read(&lent.card)?;
    let targets = targets::read(&lent.targets, |name| manifest.files.number(name))?;
    let roots = roots(&manifest.graph, &targets, &manifest.defaults)?;
    headers.add_to(manifest)?;
    // A file not listed is missing and has time 0; names that no line mentions are fine
    // (reading 23).
    let mut times = vec![0; manifest.graph.files];
    for (name, time) in card {
        if let Some(file) = manifest.files.number(name) {
            times[file as usize] = time;
        }
    }
    plan_roots(&manifest.graph, &roots, &times)
}

/// Plans the graph.
pub fn plan_graph(graph: &Graph, start: &Start) -> Result<Answer, Refusal> {
    let roots = roots(graph, &start.targets, &start.defaults)?;
    plan_roots(graph, &roots, &start.times)
}

fn plan_roots(graph: &Graph, roots: &[u32], times: &[u64]) -> Result<Answer, Refusal> {
    let planner = Planner { graph, makers: graph.makers(), times };
    let order = match planner.order(roots) {
        Ok(order) => order,
        Err(circle) => return Ok(Answer::Circle(circle)),
    };
    if let Some(file) = planner.missing_source(roots, &order) {
        return Err(Refusal::new(15, file as usize));
    }
    let stale = planner.stale(&order);
    Ok(Answer::List(planner.list(&order, &stale)))
}

/// The files to bring up to date: refusal 13 if there are steps but no such file.
fn roots(graph: &Graph, targets: &[u32], defaults: &[u32]) -> Result<Vec<u32>, Refusal> {
    if let Some(given) = [targets, defaults].into_iter().find(|files| !files.is_empty()) {
        return Ok(given.to_vec());
    }
    // "No step's input": of any kind and of any step, its own included (reading 25), but as written.
    let mut is_input = vec![false; graph.files];
    for file in graph.steps.iter().flat_map(Step::written_inputs) {
        is_input[file as usize] = true;
    }
    let outputs = graph.steps.iter().flat_map(|step| &step.outputs).copied();
    let roots: Vec<u32> = outputs.filter(|&file| !is_input[file as usize]).collect();
    Refusal::when(roots.is_empty() && !graph.steps.is_empty(), 13, 0)?;
    Ok(roots)
}

/// A depth-first search for an order of the needed steps.
struct Search {
    marks: Vec<Mark>,
    /// Steps under way: each has an input made by the next.
    path: Vec<u32>,
    /// Steps done, each after the makers of all its inputs.
    order: Vec<u32>,
}

#[derive(Clone, Copy)]
enum Mark {
    Unseen,
    OnPath,
    Done,
}

struct Planner<'g> {
    graph: &'g Graph,
    makers: Vec<Option<u32>>,
    times: &'g [u64],
}

impl Planner<'_> {
    fn step(&self, number: u32) -> &Step {
        &self.graph.steps[number as usize]
    }

    fn maker(&self, file: u32) -> Option<u32> {
        self.makers[file as usize]
    }

    /// The makers of a step's inputs of any kind, once for each mention.
    fn upstream(&self, step: u32) -> impl Iterator<Item = u32> + '_ {
        self.step(step).inputs().filter_map(|file| self.maker(file))
    }

    /// The needed steps, each after the makers of all its inputs, or a circle.
    fn order(&self, roots: &[u32]) -> Result<Vec<u32>, Vec<u32>> {
        let steps = self.graph.steps.len();
        let marks = vec![Mark::Unseen; steps];
        let mut search = Search { marks, path: Vec::new(), order: Vec::with_capacity(steps) };
        for maker in roots.iter().filter_map(|&file| self.maker(file)) {
            self.visit(maker, &mut search)?;
        }
        Ok(search.order)
    }

    /// Visits a step and all upstream of it; gives a circle if the path comes back to itself.
    fn visit(&self, step: u32, search: &mut Search) -> Result<(), Vec<u32>> {
        match search.marks[step as usize] {
            Mark::Done => return Ok(()),
            Mark::OnPath => {
                let path = search.path.iter().copied();
                return Err(path.skip_while(|&other| other != step).collect());
            }
            Mark::Unseen => {}
        }
        search.marks[step as usize] = Mark::OnPath;
        search.path.push(step);
        for maker in self.upstream(step) {
            self.visit(maker, search)?;
        }
        search.path.pop();
        search.marks[step as usize] = Mark::Done;
        search.order.push(step);
        Ok(())
    }

    /// The lowest missing file without a maker that is a target or a written input of a needed step.
    fn missing_source(&self, roots: &[u32], order: &[u32]) -> Option<u32> {
        let inputs = order.iter().flat_map(|&step| self.step(step).written_inputs());
        inputs.chain(roots.iter().copied()).filter(|&file| self.is_missing_source(file)).min()
    }

    fn is_missing_source(&self, file: u32) -> bool {
        self.maker(file).is_none() && self.times[file as usize] == 0
    }

    /// Which of the ordered steps are stale, makers first.
    fn stale(&self, order: &[u32]) -> Vec<bool> {
        let mut stale = vec![false; self.graph.steps.len()];
        let mut times = self.times.to_vec();
        for &number in order {
            let step = self.step(number);
            let newest = step.dated_inputs().map(|file| times[file as usize]).max().unwrap_or(0);
            let mut makers = step.dated_inputs().filter_map(|file| self.maker(file));
            stale[number as usize] =
                makers.any(|maker| stale[maker as usize]) || self.stale_by_files(step, newest);
            if step.phony {
                let missing = |file: &&u32| self.times[**file as usize] == 0;
                for &output in step.outputs.iter().filter(missing) {
                    times[output as usize] = newest;
                }
            }
        }
        stale
    }

    /// Whether a step is stale even if no maker is; `newest` is the greatest time of its
    /// non-order-only inputs.
    fn stale_by_files(&self, step: &Step, newest: u64) -> bool {
        let mut outputs = step.outputs.iter().map(|&file| self.times[file as usize]);
        if step.phony {
            // "No inputs at all" counts order-only inputs (reading 25).
            step.inputs().next().is_none() && outputs.any(|time| time == 0)
        } else {
            step.lacks_list
                || step.listed.iter().any(|&file| self.is_missing_source(file))
                || outputs.any(|time| time == 0 || time < newest)
        }
    }

    /// The stale command steps, at each place the lowest whose stale command steps upstream are
    /// all listed. A fresh or phony step is passed as soon as its makers are: it delays nothing.
    fn list(&self, order: &[u32], stale: &[bool]) -> Vec<u32> {
        let mut waiting = Waiting::new(self, order);
        let mut free: Vec<u32> = waiting.for_none(order).collect();
        let mut ready = BinaryHeap::new();
        let mut list = Vec::new();
        loop {
            while let Some(step) = free.pop() {
                if stale[step as usize] && !self.step(step).phony {
                    ready.push(Reverse(step));
                } else {
                    waiting.pass(step, &mut free);
                }
            }
            let Some(Reverse(step)) = ready.pop() else {
                return list;
            };
            list.push(step);
            waiting.pass(step, &mut free);
        }
    }
}

/// What each needed step waits for, and which steps wait for it: `steps[starts[s]..starts[s + 1]]`
/// are those with an input made by `s`, once for each mention.
struct Waiting {
    counts: Vec<u32>,
    starts: Vec<usize>,
    steps: Vec<u32>,
}

impl Waiting {
    fn new(planner: &Planner, order: &[u32]) -> Self {
        let mut counts = vec![0; planner.graph.steps.len()];
        let mut starts = vec![0; planner.graph.steps.len() + 1];
        for &step in order {
            for maker in planner.upstream(step) {
                counts[step as usize] += 1;
                starts[maker as usize] += 1;
            }
        }
        let mut total = 0;
        for start in &mut starts {
            total += *start;
            *start = total;
        }
        let mut steps = vec![0; total];
        for &step in order {
            for maker in planner.upstream(step) {
                starts[maker as usize] -= 1;
                steps[starts[maker as usize]] = step;
            }
        }
        Waiting { counts, starts, steps }
    }

    /// Those of the steps that wait for nothing.
    fn for_none<'a>(&'a self, steps: &'a [u32]) -> impl Iterator<Item = u32> + 'a {
        steps.iter().copied().filter(|&step| self.counts[step as usize] == 0)
    }

    /// Passes a step: those that waited for it alone are free.
    fn pass(&mut self, step: u32, free: &mut Vec<u32>) {
        let step = step as usize;
        for &next in &self.steps[self.starts[step]..self.starts[step + 1]] {
            self.counts[next as usize] -= 1;
            if self.counts[next as usize] == 0 {
                free.push(next);
            }
        }
    }
}
