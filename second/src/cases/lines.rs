//! Cases as plain lines, for other tools.

use super::{Case, Expected};
use crate::{Answer, Question};

/// Every plan and text ask of a case with its expected answer, one line each: what is packed.
pub fn ask_lines(case: &Case) -> Vec<String> {
    lines(case, |question| !is_texts(question))
}

/// Every texts ask of a case with its expected answer, one line each.
pub fn texts_lines(case: &Case) -> Vec<String> {
    lines(case, is_texts)
}

fn is_texts(question: &Question) -> bool {
    matches!(question, Question::Texts { .. })
}

fn lines(case: &Case, told: impl Fn(&Question) -> bool) -> Vec<String> {
    let line = |(question, expected): &(Question, Expected)| {
        format!("{} {} -> {expected}", case.name, case.ask(question))
    };
    case.asks.iter().filter(|(question, _)| told(question)).map(line).collect()
}

/// What the program has to write for a case, as a line for other tools, if the case gives it.
pub fn program_line(case: &Case) -> Option<String> {
    let prints = Answer::Text(case.prints.clone()?);
    Some(format!("{} program {} -> {prints}", case.name, case.lent))
}
