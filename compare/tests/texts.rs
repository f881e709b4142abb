//! Texts asks: those of the cases, put to the library with both buffers watched, and the Rust crate's
//! iterator against text asks of the second planner. `TEXTS` in the environment runs another number
//! of random asks, from seed `FROM` on.

use compare::asks::{asked, judge, ours};
use compare::settings::setting;
use kestrenyo::Refusal;
use second::cases::{files, folder, read};
use second::generate;
use second::{Answer, Ask, Lent, Question, Wanted};
use std::collections::BTreeMap;

const TEXTS: u64 = 5_000;

/// The texts asks of all cases, by the name of the case, with the answers that are right.
fn of_cases() -> Vec<(String, Ask, Vec<Answer>)> {
    let cases = read(&files(&folder()).expect("the folder of cases")).expect("sound cases");
    let mut asks = Vec::new();
    for case in &cases {
        for (question, expected) in &case.asks {
            if matches!(question, Question::Texts { .. }) {
                asks.push((case.name.clone(), case.ask(question), expected.answers()));
            }
        }
    }
    asks
}

/// They are not among the packed ones, which the proved program `cases` puts to the other asks.
#[test]
fn all_cases_pass() {
    let asks = of_cases();
    assert!(asks.len() >= 100, "only {} asks", asks.len());
    for (case, ask, answers) in asks {
        for answer in answers {
            if let Err(difference) = judge(&ask, &ours(&ask), &answer) {
                panic!("{case}: {difference}\n{ask}");
            }
        }
    }
}

/// What the iterator is to give: what the second planner answers for each step, up to a refusal.
fn one_by_one(bundle: &[u8], steps: &[u32], wanted: Wanted) -> Vec<Answer> {
    let mut known: BTreeMap<u32, Answer> = BTreeMap::new();
    let mut answers = Vec::new();
    for &step in steps {
        let ask = || {
            let question = Question::text(step as usize, wanted);
            Ask { lent: Lent::bundle(bundle), question }.answer()
        };
        let answer = known.entry(step).or_insert_with(ask).clone();
        let refused = answer.refusal().is_some();
        answers.push(answer);
        if refused {
            break;
        }
    }
    answers
}

/// What the iterator gives: a text, or its refusal as a line, for each step.
fn iterated(bundle: &[u8], steps: &[u32], wanted: Wanted) -> Vec<Result<Vec<u8>, String>> {
    let bundle = kestrenyo::Bundle::from_bytes(bundle);
    let texts = kestrenyo::texts(&bundle, steps, asked(wanted));
    let shown = |refusal: Refusal| format!("refused {} at {}", refusal.number(), refusal.place());
    texts.map(|text| text.map_err(shown)).collect()
}

#[test]
fn the_iterator_gives_each_text() {
    let (count, from) = (setting("TEXTS", TEXTS), setting("FROM", 0));
    let random = (from..).map(generate::ask);
    let random = random.filter(|ask| matches!(ask.question, Question::Texts { .. }));
    let asks = of_cases().into_iter().map(|(_, ask, _)| ask).chain(random.take(count as usize));
    let (mut texts, mut refused) = (0, 0);
    for ask in asks {
        let Question::Texts { steps, wanted, .. } = &ask.question else { continue };
        let right = one_by_one(&ask.lent.bundle, steps, *wanted);
        let given = iterated(&ask.lent.bundle, steps, *wanted);
        assert_eq!(given.len(), right.len(), "{ask}");
        for (given, right) in given.into_iter().zip(right) {
            match (given, right) {
                (Ok(given), Answer::Text(right)) if given == right => texts += 1,
                (Err(given), Answer::Refused(right)) => {
                    assert_eq!(given, right.to_string(), "{ask}");
                    refused += 1;
                }
                (given, right) => panic!("{given:?} and not {right}: {ask}"),
            }
        }
    }
    println!("{texts} texts, {refused} refusals");
    assert!(texts > 10 * count && refused > count / 10, "{texts} {refused}");
}
