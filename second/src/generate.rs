//! Seeded random asks: near-valid manifests of all kinds, of one file or of several, with header
//! lists, cards, targets and buffers around them, most of them sound and some damaged.

pub mod damage;
pub mod draft;
pub mod edges;
pub mod graphs;
pub mod headers;
pub mod many;
pub mod split;

use crate::limits;
use crate::rng::Rng;
use crate::{Ask, Lent, Question, Wanted};
use draft::Draft;
use split::Files;

/// The most bytes of a small ask's manifests together, and of its header lists.
pub const SMALL: usize = 300;

/// An ask of any size.
pub fn ask(seed: u64) -> Ask {
    let rng = &mut Rng::new(seed);
    let kind = Kind::draw(rng);
    let mut lists = None;
    let files = match kind {
        Kind::Mixed => split::alone(Draft::new(rng).mixed(600)),
        Kind::Texts => split::alone(Draft::new(rng).texts()),
        Kind::LongTexts => split::alone(edges::long_texts(rng)),
        Kind::Graph => with_lists(of_graph(rng, 20), &mut lists),
        Kind::Edge => split::alone(edges::full(rng)),
        Kind::Files => Draft::new(rng).files(600),
        Kind::FilesEdge if rng.chance(3) => split::full(rng),
        Kind::FilesEdge => split::edge(rng),
        Kind::HeadersEdge => with_lists(headers::edge(rng), &mut lists),
    };
    let files = damaged(rng, files);
    let bundle = split::write(rng, &files);
    around(rng, kind, bundle, lists, usize::MAX)
}

/// An ask whose manifests, and whose lists, have at most [`SMALL`] bytes together; only refusal 2 is out of its reach.
pub fn small_ask(seed: u64) -> Ask {
    let rng = &mut Rng::new(seed);
    let kind = Kind::draw(rng);
    let mut lists = None;
    let files = match kind {
        Kind::Mixed => split::alone(Draft::new(rng).mixed(200)),
        Kind::Texts => split::alone(Draft::new(rng).texts()),
        Kind::LongTexts => split::alone(edges::long_texts(rng)),
        Kind::Graph => with_lists(of_graph(rng, 5), &mut lists),
        Kind::Edge => split::alone(edges::small(rng)),
        Kind::Files => Draft::new(rng).files(200),
        Kind::FilesEdge => split::edge(rng),
        Kind::HeadersEdge => with_lists(headers::small_edge(rng), &mut lists),
    };
    let mut files = damaged(rng, files);
    while split::length(&files) > SMALL {
        let longest = files.iter_mut().max_by_key(|(_, text)| text.len());
        longest.into_iter().for_each(|(_, text)| drop_last_line(text));
    }
    let bundle = split::write(rng, &files);
    around(rng, kind, bundle, lists, SMALL)
}

/// A manifest alone; its lists are kept apart.
fn with_lists((manifest, drawn): (Vec<u8>, Files), lists: &mut Option<Files>) -> Files {
    *lists = Some(drawn);
    split::alone(manifest)
}

/// The files, of which some are cut into several, and one may be edited.
fn damaged(rng: &mut Rng, mut files: Files) -> Files {
    if rng.chance(30) {
        split::cut(rng, &mut files);
    }
    if rng.chance(20) {
        let at = rng.below(files.len());
        damage::edit(rng, &mut files[at].1);
    }
    files
}

#[derive(Clone, Copy, PartialEq, Eq)]
enum Kind {
    Mixed,
    Texts,
    LongTexts,
    Graph,
    Edge,
    Files,
    FilesEdge,
    HeadersEdge,
}

impl Kind {
    fn draw(rng: &mut Rng) -> Kind {
        match rng.below(100) {
            0..=24 => Kind::Mixed,
            25..=28 => Kind::LongTexts,
            29..=41 => Kind::Texts,
            42..=66 => Kind::Graph,
            67..=74 => Kind::Edge,
            75..=88 => Kind::Files,
            89..=94 => Kind::FilesEdge,
            _ => Kind::HeadersEdge,
        }
    }
}

fn of_graph(rng: &mut Rng, most_steps: usize) -> (Vec<u8>, Files) {
    let ask = graphs::graph_ask(rng, most_steps);
    (graphs::manifest(rng, &ask), graphs::lists(rng, &ask))
}

fn drop_last_line(manifest: &mut Vec<u8>) {
    manifest.pop();
    let end = manifest.iter().rposition(|&byte| byte == b'\n').map_or(0, |newline| newline + 1);
    manifest.truncate(end);
}

/// The ask of a bundle: more often a text, or many in one ask, where there are some to see. Of the
/// header lists, those given or else drawn, it has as many as have `most` bytes together.
fn around(rng: &mut Rng, kind: Kind, bundle: Vec<u8>, lists: Option<Files>, most: usize) -> Ask {
    let (texts, many) = match kind {
        Kind::Mixed => (30, 30),
        Kind::Texts => (90, 30),
        Kind::LongTexts => (90, 80),
        Kind::Graph => (5, 30),
        Kind::Edge => (60, 30),
        Kind::Files => (60, 30),
        Kind::FilesEdge => (20, 30),
        Kind::HeadersEdge => (10, 30),
    };
    if rng.chance(texts) {
        let step = damage::step(rng, &bundle);
        let wanted = if rng.chance(60) { Wanted::Command } else { Wanted::Description };
        let buf_len = buffer(rng, limits::TEXT);
        let question = if rng.chance(many) {
            many::texts(rng, &bundle, wanted)
        } else {
            Question::Text { step, wanted, buf_len }
        };
        Ask { lent: Lent::bundle(bundle), question }
    } else {
        let mut lists = lists.unwrap_or_else(|| headers::lists(rng, &bundle));
        while split::length(&lists) > most {
            lists.pop();
        }
        let lent = lent(rng, bundle, lists);
        Ask { lent, question: Question::Plan { list_len: buffer(rng, limits::LIST) } }
    }
}

/// A bundle with header lists, a card and targets for a plan of it.
pub fn plan_lent(rng: &mut Rng, bundle: Vec<u8>) -> Lent {
    let lists = headers::lists(rng, &bundle);
    lent(rng, bundle, lists)
}

fn lent(rng: &mut Rng, bundle: Vec<u8>, lists: Files) -> Lent {
    let headers = headers::write(rng, lists);
    let card = damage::card(rng, &bundle, &headers);
    let targets = damage::targets(rng, &bundle, &headers);
    Lent { bundle, headers, card, targets }
}

/// The length of a lent buffer, mostly the least that will do.
fn buffer(rng: &mut Rng, least: usize) -> usize {
    match rng.below(80) {
        0 => least - 1,
        1 => 0,
        2..=5 => least + rng.below(1_000),
        _ => least,
    }
}
