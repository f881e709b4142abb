//! Plans of random graphs, each written as a manifest with header lists: the proved planner's against
//! the second planner's and against its naive transcription of the rules. `GRAPHS` in the environment runs
//! another number of graphs, from seed `FROM` on.

use compare::asks::{judge, ours};
use compare::settings::setting;
use second::generate::graphs::{self, graph_ask, GraphAsk};
use second::graph::Start;
use second::headers::Headers;
use second::rng::Rng;
use second::{bundle, card, manifest, naive, targets, Answer, Ask, Lent};
use std::collections::BTreeMap;

const GRAPHS: u64 = 200_000;

/// The graph as what a plan ask lends, file `n` being named `fn`. A target that no step mentions, but
/// perhaps its list, has no place in a manifest and is left out.
fn lent(rng: &mut Rng, ask: &GraphAsk) -> Lent {
    let GraphAsk { graph, start } = ask;
    let mentioned = |file: u32| {
        let steps = &mut graph.steps.iter();
        steps.any(|step| {
            step.outputs.contains(&file) || step.written_inputs().any(|input| input == file)
        })
    };
    let names: Vec<Vec<u8>> =
        (0..start.times.len()).map(|file| format!("f{file}").into_bytes()).collect();
    let mut records: Vec<(&[u8], u64)> =
        names.iter().map(Vec::as_slice).zip(start.times.clone()).collect();
    records.retain(|&(_, time)| time > 0);
    records.sort();
    let targets: String = start
        .targets
        .iter()
        .filter(|&&file| mentioned(file))
        .map(|file| format!("f{file}\n"))
        .collect();
    let lent = Lent::alone(graphs::manifest(rng, ask));
    let lists = graphs::lists(rng, ask);
    let lists: Vec<_> = lists.iter().map(|(path, text)| (&path[..], &text[..])).collect();
    let (headers, card) = (bundle::write(&lists), card::write(&records));
    Lent { headers, card, targets: targets.into_bytes(), ..lent }
}

/// What the naive transcription answers to what is lent, and none for a circle.
fn by_the_rules(lent: &Lent) -> Option<Answer> {
    let mut read = manifest::read(&lent.bundle).expect("a sound manifest");
    let targets = targets::read(&lent.targets, |name| read.files.number(name));
    let headers = Headers::read(&lent.headers).expect("sound header lists");
    headers.add_to(&mut read).expect("lists of their steps");
    let mut times = vec![0; read.files.names.len()];
    for (name, time) in card::read(&lent.card).expect("a sound card") {
        if let Some(file) = read.files.number(name) {
            times[file as usize] = time;
        }
    }
    let targets = targets.expect("targets that are mentioned");
    naive::plan(&read.graph, &Start { times, targets, defaults: read.defaults.clone() })
}

/// The kind of outcome, after checking that all three agree on it, and the buffer with them.
fn compare(seed: u64, most_steps: usize) -> &'static str {
    let rng = &mut Rng::new(seed);
    let ask = graph_ask(rng, most_steps);
    let ask = Ask::plan(lent(rng, &ask));
    let theirs = ask.answer();
    if let Err(difference) = judge(&ask, &ours(&ask), &theirs) {
        panic!("seed {seed}: {difference}\n{ask}");
    }
    match by_the_rules(&ask.lent) {
        None => assert!(matches!(theirs, Answer::Circle(_)), "seed {seed}: {ask}"),
        Some(answer) => assert_eq!(answer, theirs, "seed {seed}: {ask}"),
    }
    match theirs {
        Answer::Circle(_) => "circle",
        Answer::List(steps) if steps.is_empty() => "empty list",
        Answer::List(steps) if steps.is_sorted() => "rising list",
        Answer::List(_) => "other list",
        Answer::Refused(refusal) if refusal.number == 13 => "13",
        Answer::Refused(_) => "15",
        Answer::Text(_) | Answer::Texts(_) => unreachable!("a plan was asked for"),
    }
}

#[test]
fn graphs_agree() {
    let (graphs, from) = (setting("GRAPHS", GRAPHS), setting("FROM", 0));
    let mut kinds: BTreeMap<&str, u64> = BTreeMap::new();
    for seed in from..from + graphs {
        let most_steps = match seed % 100 {
            0 => 40,
            _ => 3 + (seed % 8) as usize,
        };
        *kinds.entry(compare(seed, most_steps)).or_default() += 1;
    }
    println!("{kinds:?}");
    assert_eq!(kinds.len(), 6, "{kinds:?}");
    assert!(kinds.values().all(|&count| count > graphs / 200), "{kinds:?}");
}
