//! An ask as one value: what is lent to the planner, and what it is asked.

use crate::{bundle, card, headers, limits, manifest, plan, text, texts, Answer, Refusal};

/// An ask with all that it lends.
#[derive(Debug, Clone, PartialEq, Eq)]
pub struct Ask {
    pub lent: Lent,
    pub question: Question,
}

/// The bytes that are lent to be read. Texts are answered from the bundle of manifests alone.
#[derive(Debug, Clone, PartialEq, Eq)]
pub struct Lent {
    pub bundle: Vec<u8>,
    /// The bundle of header lists.
    pub headers: Vec<u8>,
    pub card: Vec<u8>,
    pub targets: Vec<u8>,
}

/// What is asked, and how much room is lent for the answer.
#[derive(Debug, Clone, PartialEq, Eq)]
pub enum Question {
    /// The steps to run; `list_len` is the length of the lent list buffer, in numbers.
    Plan { list_len: usize },
    /// A text of a step; `buf_len` is the length of the lent text buffer, in bytes.
    Text { step: usize, wanted: Wanted, buf_len: usize },
    /// The texts of these steps; `buf_len` is the length of the lent byte buffer, `ends_len` that
    /// of the lent buffer for where each text ends, in numbers.
    Texts { steps: Vec<u32>, wanted: Wanted, buf_len: usize, ends_len: usize },
}

/// Which of a step's texts is wanted.
#[derive(Debug, Clone, Copy, PartialEq, Eq)]
pub enum Wanted {
    Command,
    Description,
}

impl Lent {
    /// A bundle with no header lists, the card of no files, and no targets.
    pub fn bundle(bundle: impl Into<Vec<u8>>) -> Self {
        let (headers, card) = (headers::none(), card::write(&[]));
        Lent { bundle: bundle.into(), headers, card, targets: Vec::new() }
    }

    /// One manifest alone, under the name `build.ninja`, with nothing beside it.
    pub fn alone(manifest: impl AsRef<[u8]>) -> Self {
        Lent::bundle(bundle::alone(manifest.as_ref()))
    }
}

impl Question {
    /// A plan, with the least list buffer that will do.
    pub const PLAN: Question = Question::Plan { list_len: limits::LIST };

    /// A text of a step, with the least text buffer that will do.
    pub fn text(step: usize, wanted: Wanted) -> Self {
        Question::Text { step, wanted, buf_len: limits::TEXT }
    }

    /// Texts of steps, with the least byte buffer that will do and room for each end.
    pub fn texts(steps: &[u32], wanted: Wanted) -> Self {
        let (steps, ends_len) = (steps.to_vec(), steps.len());
        Question::Texts { steps, wanted, buf_len: limits::TEXT, ends_len }
    }

    /// No buffer for ends is too short: without room for an end no text is written.
    fn lends_too_little(&self) -> bool {
        match *self {
            Question::Plan { list_len } => list_len < limits::LIST,
            Question::Text { buf_len, .. } | Question::Texts { buf_len, .. } => {
                buf_len < limits::TEXT
            }
        }
    }
}

impl Wanted {
    /// The name that is looked up for the text.
    pub fn name(self) -> &'static str {
        match self {
            Wanted::Command => "command",
            Wanted::Description => "description",
        }
    }

    /// What is wanted by this name.
    pub fn of(name: &str) -> Option<Self> {
        [Wanted::Command, Wanted::Description].into_iter().find(|wanted| wanted.name() == name)
    }
}

impl Ask {
    /// A plan of what is lent, with the least list buffer that will do.
    pub fn plan(lent: Lent) -> Self {
        Ask { lent, question: Question::PLAN }
    }

    /// A text of a step of this manifest, lent alone, with the least text buffer that will do.
    pub fn text(manifest: impl AsRef<[u8]>, step: usize, wanted: Wanted) -> Self {
        Ask { lent: Lent::alone(manifest), question: Question::text(step, wanted) }
    }

    /// Texts of steps of this manifest, lent alone, with the least byte buffer that will do and room
    /// for each end.
    pub fn texts(manifest: impl AsRef<[u8]>, steps: &[u32], wanted: Wanted) -> Self {
        Ask { lent: Lent::alone(manifest), question: Question::texts(steps, wanted) }
    }

    /// The second planner's answer.
    pub fn answer(&self) -> Answer {
        self.answer_or_refusal().unwrap_or_else(Answer::Refused)
    }

    fn answer_or_refusal(&self) -> Result<Answer, Refusal> {
        Refusal::when(self.question.lends_too_little(), 1, 0)?;
        let lent = &self.lent;
        match self.question {
            Question::Plan { .. } => {
                let (mut manifest, headers) = plan::read(lent)?;
                plan::plan(&mut manifest, &headers, lent)
            }
            Question::Text { step, wanted, .. } => {
                let manifest = manifest::read(&lent.bundle)?;
                text::text(&manifest, step, wanted).map(Answer::Text)
            }
            Question::Texts { ref steps, wanted, buf_len, ends_len } => {
                let manifest = manifest::read(&lent.bundle)?;
                let room = texts::Room { bytes: buf_len, ends: ends_len };
                texts::texts(&manifest, steps, wanted, room).map(Answer::Texts)
            }
        }
    }
}
