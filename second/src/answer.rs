//! What the planner answers: listed steps, a text or several, or a refusal with its number and
//! place.

/// The answer to an ask.
#[derive(Debug, Clone, PartialEq, Eq)]
pub enum Answer {
    /// The steps to run, in order.
    List(Vec<u32>),
    /// The text of a step.
    Text(Vec<u8>),
    /// The texts of as many leading steps as there is room for.
    Texts(Vec<Vec<u8>>),
    /// Refusal 14: the steps of one circle; its place is their number.
    Circle(Vec<u32>),
    /// Any other refusal.
    Refused(Refusal),
}

impl Answer {
    /// The refusal that the answer is, if it is one.
    pub fn refusal(&self) -> Option<Refusal> {
        match self {
            Answer::List(_) | Answer::Text(_) | Answer::Texts(_) => None,
            Answer::Circle(steps) => Some(Refusal::new(14, steps.len())),
            Answer::Refused(refusal) => Some(*refusal),
        }
    }

    /// The documents' three numbers for the answer: 0 or a refusal's number, what kind of place
    /// follows (see [`Place::text`]), and the count or the place's value.
    pub fn numbers(&self) -> (u8, usize, usize) {
        match self {
            Answer::List(steps) => (0, 0, steps.len()),
            Answer::Text(bytes) => (0, 0, bytes.len()),
            Answer::Texts(texts) => (0, 0, texts.len()),
            Answer::Circle(steps) => (14, 0, steps.len()),
            Answer::Refused(Refusal { number, place }) => (*number, place.text(), place.value()),
        }
    }
}

/// A refusal: its number, 1 to 20, and its place.
#[derive(Debug, Clone, Copy, PartialEq, Eq)]
pub struct Refusal {
    pub number: u8,
    pub place: Place,
}

impl Refusal {
    pub fn new(number: u8, place: impl Into<Place>) -> Self {
        Refusal { number, place: place.into() }
    }

    /// Refuses when there is a fault.
    pub fn when(fault: bool, number: u8, place: impl Into<Place>) -> Result<(), Refusal> {
        if fault {
            Err(Refusal::new(number, place))
        } else {
            Ok(())
        }
    }

    /// A refusal at an offset, as one in the text of this record.
    pub fn in_text(self, record: usize) -> Self {
        Refusal { place: Place::Text { record, offset: self.place.value() }, ..self }
    }
}

/// Where a fault is: what the documents say under its number.
#[derive(Debug, Clone, Copy, PartialEq, Eq)]
pub enum Place {
    /// A number by itself: a step, a file, a length, an offset in the target list, or 0.
    Number(usize),
    /// An offset in the text of a record of the bundle.
    Text { record: usize, offset: usize },
}

impl Place {
    /// 0 for a number by itself, else the record's number and one more.
    pub fn text(self) -> usize {
        match self {
            Place::Number(_) => 0,
            Place::Text { record, .. } => record + 1,
        }
    }

    /// The number, or the offset in the text.
    pub fn value(self) -> usize {
        match self {
            Place::Number(number) => number,
            Place::Text { offset, .. } => offset,
        }
    }
}

impl From<usize> for Place {
    fn from(value: usize) -> Self {
        Place::Number(value)
    }
}
