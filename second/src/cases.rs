//! The case files of `/cases`: their reader, and the comparison of the second planner with them.
//! The format is described in `cases/README.md`.

mod check;
mod error;
mod escapes;
mod expected;
mod files;
mod lines;
mod pack;
mod parse;
mod pieces;

pub use check::{check, outputs, Difference};
pub use error::{Error, Fault, Origin};
pub use expected::Expected;
pub use files::{files, folder, read};
pub use lines::{ask_lines, program_line, texts_lines};
pub use pack::{pack, TooGreat};
pub use parse::parse;

use crate::{bundle, headers, Ask, Lent, Question};
use std::str::FromStr;

#[derive(Debug, Clone)]
pub struct Case {
    pub name: String,
    /// The line at which the case begins.
    pub origin: Origin,
    /// The sentences and readings that the case tests.
    pub says: Vec<String>,
    pub lent: Lent,
    /// What is asked of that, with the expected answers.
    pub asks: Vec<(Question, Expected)>,
    /// What the program writes, if the case gives it.
    pub prints: Option<Vec<u8>>,
}

impl Case {
    /// One of the case's questions with all that it lends.
    pub fn ask(&self, question: &Question) -> Ask {
        Ask { lent: self.lent.clone(), question: question.clone() }
    }

    /// The manifest, if it is lent alone and without header lists, as the program does it.
    pub fn manifest_alone(&self) -> Option<&[u8]> {
        bundle::text_alone(&self.lent.bundle).filter(|_| self.lent.headers == headers::none())
    }
}

/// A number of a line.
fn number<T: FromStr>(word: &str) -> Result<T, Fault> {
    word.parse().map_err(|_| Fault::Number(word.to_string()))
}
