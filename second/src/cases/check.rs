//! The comparison of the second planner with a case, and what a program may write for one.

use super::{Case, Expected, Origin};
use crate::{program, Answer, Question};
use std::fmt::{self, Display, Formatter};
use std::panic::{catch_unwind, AssertUnwindSafe};

/// What the program may write for a case: what the case gives, or else what the second planner's
/// program writes, with any expected circle, begun at any of its steps.
pub fn outputs(case: &Case) -> Vec<Vec<u8>> {
    if let Some(prints) = &case.prints {
        return vec![prints.clone()];
    }
    let circles = case.asks.iter().find(|(_, expected)| matches!(expected, Expected::Circles(_)));
    match circles {
        Some((_, circles)) => circles.answers().iter().map(program::refused).collect(),
        None => vec![program::output(&case.lent)],
    }
}

/// An answer that a case does not expect.
#[derive(Debug, Clone, PartialEq, Eq)]
pub struct Difference {
    pub case: String,
    pub origin: Origin,
    pub asked: String,
    pub expected: String,
    pub answered: String,
}

impl Display for Difference {
    fn fmt(&self, f: &mut Formatter) -> fmt::Result {
        let Difference { case, origin, asked, expected, answered } = self;
        write!(f, "{case} ({origin}): {asked}\n  expected {expected}\n  answered {answered}")
    }
}

/// What the second planner answers otherwise than expected; one that panics answers nothing.
pub fn check(case: &Case) -> Vec<Difference> {
    let asks = case.asks.iter();
    let asks = asks.filter_map(|(question, expected)| check_ask(case, question, expected));
    asks.chain(check_program(case)).collect()
}

fn check_ask(case: &Case, question: &Question, expected: &Expected) -> Option<Difference> {
    let ask = case.ask(question);
    let answer = catch_unwind(AssertUnwindSafe(|| ask.answer())).ok();
    if answer.as_ref().is_some_and(|answer| expected.allows(answer)) {
        return None;
    }
    let expected = match expected {
        Expected::One(answer) => readable(answer),
        Expected::Circles(_) => expected.to_string(),
    };
    Some(difference(case, format!("{question:?}"), expected, answer))
}

fn check_program(case: &Case) -> Option<Difference> {
    let prints = case.prints.as_ref()?;
    let written = catch_unwind(AssertUnwindSafe(|| program::output(&case.lent))).ok();
    if written.as_ref() == Some(prints) {
        return None;
    }
    let expected = readable(&Answer::Text(prints.clone()));
    Some(difference(case, "the program".to_string(), expected, written.map(Answer::Text)))
}

fn difference(case: &Case, asked: String, expected: String, answer: Option<Answer>) -> Difference {
    let answered = answer.as_ref().map_or("nothing".to_string(), readable);
    let (case, origin) = (case.name.clone(), case.origin.clone());
    Difference { case, origin, asked, expected, answered }
}

/// An answer with its bytes, if it has any, in readable form.
fn readable(answer: &Answer) -> String {
    match answer {
        Answer::Text(bytes) => format!("text {}", bytes.escape_ascii()),
        Answer::Texts(texts) => {
            let texts = texts.iter().map(|text| format!(" {},", text.escape_ascii()));
            format!("texts{}", texts.collect::<String>())
        }
        _ => answer.to_string(),
    }
}
