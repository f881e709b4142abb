//! The planning against the naive transcription of "Needed and stale", on random small graphs.

use second::generate::graphs::{graph_ask, GraphAsk};
use second::naive;
use second::plan::plan_graph;
use second::rng::Rng;
use second::Answer;
use std::collections::BTreeMap;

const GRAPHS: u64 = 100_000;

/// The outcome's kind, after checking that both planners agree on it.
fn compare(ask: &GraphAsk) -> &'static str {
    let GraphAsk { graph, start } = ask;
    let fast = plan_graph(graph, start).unwrap_or_else(Answer::Refused);
    match naive::plan(graph, start) {
        None => {
            let needed = naive::needed(graph, &naive::roots(graph, start));
            let Answer::Circle(circle) = fast else { panic!("no circle: {ask:?}") };
            assert!(naive::is_circle(graph, &needed, &circle), "{circle:?} {ask:?}");
            match circle.len() {
                1 => "circle of 1",
                _ => "circle of more",
            }
        }
        Some(answer) => {
            assert_eq!(fast, answer, "{ask:?}");
            match answer {
                Answer::List(list) if list.is_empty() => "empty list",
                Answer::List(list) if list.is_sorted() => "rising list",
                Answer::List(_) => "other list",
                Answer::Refused(refusal) if refusal.number == 13 => "refused 13",
                _ => "refused 15",
            }
        }
    }
}

#[test]
fn fast_and_naive_planning_agree() {
    let mut kinds: BTreeMap<&str, u64> = BTreeMap::new();
    for seed in 0..GRAPHS {
        let most_steps = 3 + (seed % 8) as usize;
        *kinds.entry(compare(&graph_ask(&mut Rng::new(seed), most_steps))).or_default() += 1;
    }
    println!("{kinds:?}");
    assert_eq!(kinds.len(), 7, "{kinds:?}");
    assert!(kinds.values().all(|&count| count > GRAPHS / 200), "{kinds:?}");
}
