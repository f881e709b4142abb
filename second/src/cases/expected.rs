//! What a case expects of an answer.

use crate::wire::Steps;
use crate::Answer;
use std::fmt::{self, Display, Formatter};

/// The answers that a case expects: one alone but for circles.
#[derive(Debug, Clone, PartialEq, Eq)]
pub enum Expected {
    One(Answer),
    /// Any of these circles, begun at any of its steps.
    Circles(Vec<Vec<u32>>),
}

impl Expected {
    /// All answers that are right.
    pub fn answers(&self) -> Vec<Answer> {
        match self {
            Expected::One(answer) => vec![answer.clone()],
            Expected::Circles(circles) => circles.iter().flat_map(|steps| begun(steps)).collect(),
        }
    }

    pub fn allows(&self, answer: &Answer) -> bool {
        self.answers().contains(answer)
    }
}

/// A circle begun at each of its steps.
fn begun(steps: &[u32]) -> Vec<Answer> {
    let mut steps = steps.to_vec();
    let turned = (0..steps.len()).map(|_| {
        steps.rotate_left(1);
        Answer::Circle(steps.clone())
    });
    turned.collect()
}

/// As an answer's line, with ` or` between circles.
impl Display for Expected {
    fn fmt(&self, f: &mut Formatter) -> fmt::Result {
        match self {
            Expected::One(answer) => answer.fmt(f),
            Expected::Circles(circles) => {
                let circles: Vec<_> =
                    circles.iter().map(|steps| Steps(steps).to_string()).collect();
                write!(f, "circle{}", circles.join(" or"))
            }
        }
    }
}
