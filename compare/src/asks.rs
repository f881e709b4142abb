//! The three asks whole, from lent bytes to the filled buffers: the proved planner's answers judged
//! by the second planner's.

use kestrenyo::lent::{self, Said};
use second::generate::{self, damage};
use second::graph::Start;
use second::headers::Headers;
use second::kind::Kind;
use second::rng::Rng;
use second::{limits, manifest, naive, targets, Answer, Ask, Lent, Question, Refusal, Wanted};
use std::collections::BTreeMap;
use std::error::Error;
use std::fmt::{self, Debug, Display, Formatter};
use std::ops::Range;

/// Asks by the kind of their answer.
pub type Counts = BTreeMap<Kind, u64>;

/// What a lent buffer is full of before an ask.
pub trait Filled: Copy + PartialEq + Debug {
    const BEFORE: Self;
    const ZERO: Self;
}

impl Filled for u8 {
    const BEFORE: u8 = 0xa5;
    const ZERO: u8 = 0;
}

impl Filled for u32 {
    const BEFORE: u32 = 0xa5a5_a5a5;
    const ZERO: u32 = 0;
}

/// A buffer that is full before an ask, with some room on both sides of what is lent of it.
#[derive(Debug, Clone)]
pub struct Buffer<T> {
    pub all: Vec<T>,
    lent: Range<usize>,
}

impl<T: Filled> Buffer<T> {
    const BESIDE: usize = 16;

    pub fn new(lent: usize) -> Self {
        let all = vec![T::BEFORE; Self::BESIDE + lent + Self::BESIDE];
        Buffer { all, lent: Self::BESIDE..Self::BESIDE + lent }
    }

    pub fn lent(&mut self) -> &mut [T] {
        &mut self.all[self.lent.clone()]
    }

    /// Holds these and zeros beyond, and what was not lent is as before.
    pub fn holds(&self, wanted: &[T]) -> Result<(), Difference> {
        let (to_end, behind) = self.all.split_at(self.lent.end);
        let (front, lent) = to_end.split_at(self.lent.start);
        let (shown, beyond) = lent.split_at(wanted.len().min(lent.len()));
        told(shown == wanted, || {
            let [shown, wanted] = [shown, wanted].map(|numbers| format!("{numbers:?}"));
            Difference::Shown { shown, wanted }
        })?;
        told(beyond.iter().all(|&x| x == T::ZERO), || Difference::NotZeroBeyond)?;
        let mut beside = front.iter().chain(behind);
        told(beside.all(|&x| x == T::BEFORE), || Difference::WrittenBeside)
    }

    /// Is as it was before the ask.
    pub fn untouched(&self) -> Result<(), Difference> {
        told(self.all.iter().all(|&x| x == T::BEFORE), || Difference::Touched)
    }

    fn after(&self, refusal: Refusal) -> Result<(), Difference> {
        if refusal.number == 1 {
            self.untouched()
        } else {
            self.holds(&[])
        }
    }
}

/// How an answer of the proved planner differs from the second planner's.
#[derive(Debug, Clone, PartialEq, Eq)]
pub enum Difference {
    Said {
        said: Said,
        right: Said,
    },
    /// The lent buffer begins with something else.
    Shown {
        shown: String,
        wanted: String,
    },
    /// The lent buffer is not zero beyond the answer.
    NotZeroBeyond,
    /// What lies beside the lent buffer was written.
    WrittenBeside,
    /// The buffer was touched under 1.
    Touched,
    /// A circle is to be told, and this is no 14 or one of too many steps.
    NoCircle(Said),
    /// These are no circle of needed steps.
    UntrueCircle(Vec<u32>),
    /// The two answers are to asks of different kinds.
    OtherAsk,
}

impl Display for Difference {
    fn fmt(&self, f: &mut Formatter) -> fmt::Result {
        match self {
            Difference::Said { said, right } => {
                let (said, right) = (Numbers(*said), Numbers(*right));
                write!(f, "said {said} and not {right}")
            }
            Difference::Shown { shown, wanted } => {
                write!(f, "the buffer has {shown} and not {wanted}")
            }
            Difference::NotZeroBeyond => f.write_str("the buffer is not zero beyond the answer"),
            Difference::WrittenBeside => f.write_str("something was written beside the buffer"),
            Difference::Touched => f.write_str("the buffer was touched"),
            Difference::NoCircle(said) => write!(f, "said {} of a circle", Numbers(*said)),
            Difference::UntrueCircle(steps) => write!(f, "{steps:?} is no circle of needed steps"),
            Difference::OtherAsk => f.write_str("the answer is to another ask"),
        }
    }
}

impl Error for Difference {}

/// Number, text and value with spaces between.
struct Numbers(Said);

impl Display for Numbers {
    fn fmt(&self, f: &mut Formatter) -> fmt::Result {
        write!(f, "{} {} {}", self.0.number, self.0.text, self.0.value)
    }
}

/// An ask on which the planners differ.
#[derive(Debug, Clone)]
pub struct Differing {
    pub ask: Ask,
    pub difference: Difference,
}

fn told(holds: bool, otherwise: impl FnOnce() -> Difference) -> Result<(), Difference> {
    if holds {
        Ok(())
    } else {
        Err(otherwise())
    }
}

fn says(said: Said, answer: &Answer) -> Result<(), Difference> {
    let (number, text, value) = answer.numbers();
    let right = Said { number: usize::from(number), text, value };
    told(said == right, || Difference::Said { said, right })
}

/// The proved planner's answer: what it said, and the buffers that it was lent.
#[derive(Debug, Clone)]
pub enum Ours {
    Plan(Said, Buffer<u32>),
    Text(Said, Buffer<u8>),
    Texts(Said, Buffer<u8>, Buffer<u32>),
}

pub fn ours(ask: &Ask) -> Ours {
    let Lent { bundle, headers, card, targets } = &ask.lent;
    match ask.question {
        Question::Plan { list_len } => {
            let mut list = Buffer::new(list_len);
            Ours::Plan(lent::plan(bundle, headers, card, targets, list.lent()), list)
        }
        Question::Text { step, wanted, buf_len } => {
            let mut buffer = Buffer::new(buf_len);
            Ours::Text(lent::text(bundle, step, asked(wanted), buffer.lent()), buffer)
        }
        Question::Texts { ref steps, wanted, buf_len, ends_len } => {
            let (mut bytes, mut ends) = (Buffer::new(buf_len), Buffer::new(ends_len));
            let wanted = asked(wanted);
            let said = lent::texts(bundle, steps, wanted, bytes.lent(), ends.lent());
            Ours::Texts(said, bytes, ends)
        }
    }
}

/// What is wanted, as the proved planner is asked for it.
pub fn asked(wanted: Wanted) -> kestrenyo::Wanted {
    match wanted {
        Wanted::Command => kestrenyo::Wanted::Command,
        Wanted::Description => kestrenyo::Wanted::Description,
    }
}

/// How the proved planner's answer differs from the second planner's, if it does. Of a circle only
/// that it is a true one is asked.
pub fn judge(ask: &Ask, ours: &Ours, theirs: &Answer) -> Result<(), Difference> {
    match (ours, theirs) {
        (Ours::Plan(said, list), Answer::Circle(_)) => circle(ask, *said, list),
        (Ours::Plan(said, list), Answer::List(steps)) => {
            says(*said, theirs)?;
            list.holds(steps)
        }
        (Ours::Plan(said, list), Answer::Refused(refusal)) => {
            says(*said, theirs)?;
            list.after(*refusal)
        }
        (Ours::Text(said, buffer), Answer::Text(text)) => {
            says(*said, theirs)?;
            buffer.holds(text)
        }
        (Ours::Text(said, buffer), Answer::Refused(refusal)) => {
            says(*said, theirs)?;
            buffer.after(*refusal)
        }
        (Ours::Texts(said, bytes, ends), Answer::Texts(texts)) => {
            says(*said, theirs)?;
            bytes.holds(&texts.concat())?;
            ends.holds(&ends_of(texts))
        }
        (Ours::Texts(said, bytes, ends), Answer::Refused(refusal)) => {
            says(*said, theirs)?;
            bytes.after(*refusal)?;
            ends.after(*refusal)
        }
        _ => Err(Difference::OtherAsk),
    }
}

/// Where each of these texts ends when they stand end to end.
fn ends_of(texts: &[Vec<u8>]) -> Vec<u32> {
    let end = |end: &mut usize, text: &Vec<u8>| {
        *end += text.len();
        Some(*end as u32)
    };
    texts.iter().scan(0, end).collect()
}

fn circle(ask: &Ask, said: Said, list: &Buffer<u32>) -> Result<(), Difference> {
    let is_one = said.number == 14 && said.text == 0 && said.value <= limits::LIST;
    told(is_one, || Difference::NoCircle(said))?;
    let shown = &list.all[list.lent.clone()][..said.value];
    told(is_true(ask, shown), || Difference::UntrueCircle(shown.to_vec()))?;
    list.holds(shown)
}

/// Whether these are needed steps, each having an input made by the next, the last by the first,
/// none twice. What header lists name are inputs.
fn is_true(ask: &Ask, circle: &[u32]) -> bool {
    let Ok(mut read) = manifest::read(&ask.lent.bundle) else { return false };
    let Ok(targets) = targets::read(&ask.lent.targets, |name| read.files.number(name)) else {
        return false;
    };
    let Ok(headers) = Headers::read(&ask.lent.headers) else { return false };
    if headers.add_to(&mut read).is_err() {
        return false;
    }
    let start = Start { times: Vec::new(), targets, defaults: read.defaults };
    let needed = naive::needed(&read.graph, &naive::roots(&read.graph, &start));
    naive::is_circle(&read.graph, &needed, circle)
}

/// Asks both planners; the kind of their answer, or how they differ.
pub fn compare(ask: &Ask) -> Result<Kind, Difference> {
    let theirs = ask.answer();
    judge(ask, &ours(ask), &theirs).map(|()| Kind::of(&theirs))
}

/// At most so many texts are asked of one list, each by an ask of its own.
const TEXTS: usize = 24;

/// The asks of a seed: a random one of any size or a small one; after a list the texts of its
/// steps, in one ask and each by itself, after a text the other text of the step, after texts the
/// same by themselves, and after these a plan of the bundle.
pub fn asks(seed: u64) -> Vec<Ask> {
    let first =
        if seed.is_multiple_of(2) { generate::ask(seed) } else { generate::small_ask(seed) };
    let rng = &mut Rng::new(!seed);
    let bundle = first.lent.bundle.clone();
    let in_one = |steps: &[u32], wanted| Ask {
        lent: Lent::bundle(&bundle[..]),
        question: Question::texts(steps, wanted),
    };
    let mut asks = vec![first];
    match asks[0].question.clone() {
        Question::Plan { .. } => {
            if let Answer::List(steps) = asks[0].answer() {
                if !steps.is_empty() {
                    asks.extend(WANTED.map(|wanted| in_one(&steps, wanted)));
                }
                let mut steps = some_of(rng, steps);
                steps.push(damage::step(rng, &bundle) as u32);
                asks.extend(steps.iter().flat_map(|&step| texts(&bundle, step as usize)));
            }
        }
        Question::Text { step, .. } => {
            asks.extend(texts(&bundle, step));
            asks.push(Ask::plan(generate::plan_lent(rng, bundle)));
        }
        Question::Texts { mut steps, .. } => {
            asks.extend(WANTED.map(|wanted| in_one(&steps, wanted)));
            steps.dedup();
            let steps = some_of(rng, steps);
            asks.extend(steps.iter().flat_map(|&step| texts(&bundle, step as usize)));
            asks.push(Ask::plan(generate::plan_lent(rng, bundle)));
        }
    }
    asks
}

const WANTED: [Wanted; 2] = [Wanted::Command, Wanted::Description];

/// Both texts of a step.
fn texts(bundle: &[u8], step: usize) -> [Ask; 2] {
    WANTED.map(|wanted| Ask { lent: Lent::bundle(bundle), question: Question::text(step, wanted) })
}

/// [`TEXTS`] of these at most.
fn some_of(rng: &mut Rng, mut steps: Vec<u32>) -> Vec<u32> {
    while steps.len() > TEXTS {
        steps.swap_remove(rng.below(steps.len()));
    }
    steps
}

/// Runs so many asks, from the seed on; counts them, or stops at the first on which the planners
/// differ. `progress` is called after each seed.
pub fn run(
    seed: u64,
    count: u64,
    mut progress: impl FnMut(&Counts),
) -> Result<Counts, Box<Differing>> {
    let mut counts = Counts::new();
    let mut done = 0;
    for seed in seed.. {
        for ask in asks(seed) {
            if done == count {
                return Ok(counts);
            }
            let kind =
                compare(&ask).map_err(|difference| Box::new(Differing { ask, difference }))?;
            *counts.entry(kind).or_default() += 1;
            done += 1;
        }
        progress(&counts);
    }
    Ok(counts)
}
