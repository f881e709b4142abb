//! The kinds of answers, to count how often each one comes.

use crate::Answer;
use std::fmt::{self, Display, Formatter};

#[derive(Debug, Clone, Copy, PartialEq, Eq, PartialOrd, Ord)]
pub enum Kind {
    List,
    EmptyList,
    Text,
    EmptyText,
    Texts,
    NoTexts,
    Refused(u8),
}

impl Kind {
    pub fn of(answer: &Answer) -> Self {
        match answer {
            Answer::List(steps) if steps.is_empty() => Kind::EmptyList,
            Answer::List(_) => Kind::List,
            Answer::Text(text) if text.is_empty() => Kind::EmptyText,
            Answer::Text(_) => Kind::Text,
            Answer::Texts(texts) if texts.is_empty() => Kind::NoTexts,
            Answer::Texts(_) => Kind::Texts,
            Answer::Circle(_) => Kind::Refused(14),
            Answer::Refused(refusal) => Kind::Refused(refusal.number),
        }
    }

    /// All kinds, in order.
    pub fn all() -> impl Iterator<Item = Kind> {
        let lists = [Kind::List, Kind::EmptyList];
        let texts = [Kind::Text, Kind::EmptyText, Kind::Texts, Kind::NoTexts];
        lists.into_iter().chain(texts).chain((1..=20).map(Kind::Refused))
    }
}

impl Display for Kind {
    fn fmt(&self, f: &mut Formatter) -> fmt::Result {
        match self {
            Kind::List => f.pad("list"),
            Kind::EmptyList => f.pad("empty list"),
            Kind::Text => f.pad("text"),
            Kind::EmptyText => f.pad("empty text"),
            Kind::Texts => f.pad("texts"),
            Kind::NoTexts => f.pad("no texts"),
            Kind::Refused(number) => f.pad(&format!("refused {number}")),
        }
    }
}
