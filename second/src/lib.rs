//! A second, independent planner, written from the rules (documents 01 and 02 and their settled
//! readings) alone. It is what the proved planner is compared with, and the baseline of its speed.

pub mod answer;
pub mod ask;
pub mod bundle;
pub mod bytes;
pub mod card;
pub mod cases;
pub mod depfile;
pub mod expand;
pub mod generate;
pub mod graph;
pub mod headers;
pub mod kind;
pub mod limits;
pub mod line;
pub mod manifest;
pub mod naive;
pub mod plan;
pub mod program;
pub mod rng;
pub mod scan;
pub mod shapes;
pub mod status;
pub mod status_cases;
pub mod targets;
pub mod text;
pub mod texts;
pub mod tool;
pub mod version;
pub mod wire;

pub use answer::{Answer, Place, Refusal};
pub use ask::{Ask, Lent, Question, Wanted};
