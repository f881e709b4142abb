//! The asks, whole, of the proved planner against the second planner's, in one process: median and
//! minimum of an ask, and the ratios of both; and many texts by one ask against as many text asks.
//! The buffers that an ask lends are made before.

use compare::adversary;
use compare::asks::{asked, compare};
use compare::measure::{both, row, row_of};
use kestrenyo::lent;
use second::kind::Kind;
use second::{bundle, limits, shapes, Ask, Lent, Question, Wanted};

fn main() {
    clearing();
    plans();
    texts();
    many_texts();
    for slow in adversary::all() {
        measure(slow.name, &slow.ask);
    }
}

/// What any ask costs: the buffers of its own that it clears.
fn clearing() {
    measure("plan of an empty manifest", &Ask::plan(Lent::alone([])));
    measure("text of an empty manifest (18)", &Ask::text([], 0, Wanted::Command));
}

fn plans() {
    for shape in shapes::all(limits::STEPS) {
        for (age, ask) in shape.plans() {
            measure(&format!("plan of 512 steps: {}, {age}", shape.name), &ask);
        }
    }
}

fn texts() {
    for shape in shapes::all(limits::STEPS) {
        let bundle = bundle::alone(&shape.manifest);
        let asks: Vec<Ask> = (0..limits::STEPS)
            .map(|step| Ask::text(shape.manifest.clone(), step, Wanted::Command))
            .collect();
        for ask in &asks {
            compare(ask).unwrap_or_else(|difference| panic!("{}: {difference}", shape.name));
        }
        let mut buffer = [0; limits::TEXT];
        let mut our_step = (0..limits::STEPS).cycle();
        let mut their_ask = asks.iter().cycle();
        let (ours, theirs) = both(
            || {
                lent::text(
                    &bundle,
                    our_step.next().expect("a step"),
                    kestrenyo::Wanted::Command,
                    &mut buffer,
                )
            },
            || their_ask.next().expect("a step").answer(),
        );
        row(&format!("text of one of 512 steps: {}", shape.name), ours, theirs);
    }
}

/// The commands of all steps: by one ask of either planner, and by an ask for each against one ask.
fn many_texts() {
    const ROOM: usize = 64 << 10;
    let steps: Vec<u32> = (0..limits::STEPS as u32).collect();
    for shape in shapes::all(limits::STEPS) {
        let (bundle, ends_len) = (bundle::alone(&shape.manifest), steps.len());
        let (steps, wanted) = (steps.clone(), Wanted::Command);
        let question = Question::Texts { steps, wanted, buf_len: ROOM, ends_len };
        let ask = Ask { lent: Lent::bundle(&bundle[..]), question };
        let all = Kind::of(&ask.answer()) == Kind::Texts && ask.answer().numbers().2 == ends_len;
        assert!(all, "{}: not all texts have room", shape.name);
        measure(&format!("texts of 512 steps in one ask: {}", shape.name), &ask);

        let (mut bytes, mut ends, mut buffer) = ([0; ROOM], vec![0; ends_len], [0; limits::TEXT]);
        let Question::Texts { steps, .. } = &ask.question else { continue };
        let command = kestrenyo::Wanted::Command;
        let (one, each) = both(
            || lent::texts(&bundle, steps, command, &mut bytes, &mut ends),
            || {
                steps.iter().for_each(|&step| {
                    lent::text(&bundle, step as usize, command, &mut buffer);
                })
            },
        );
        let name = format!("  512 text asks against one for all: {}", shape.name);
        row_of(&name, ["512 asks", "one ask"], each, one);
    }
}

/// Both planners on an ask, after seeing that they agree on it.
fn measure(name: &str, ask: &Ask) {
    let kind = compare(ask).unwrap_or_else(|difference| panic!("{name}: {difference}"));
    let Lent { bundle, headers, card, targets } = &ask.lent;
    let (ours, theirs) = match ask.question {
        Question::Plan { list_len } => {
            let mut list = vec![0; list_len];
            both(|| lent::plan(bundle, headers, card, targets, &mut list), || ask.answer())
        }
        Question::Text { step, wanted, buf_len } => {
            let mut buffer = vec![0; buf_len];
            both(|| lent::text(bundle, step, asked(wanted), &mut buffer), || ask.answer())
        }
        Question::Texts { ref steps, wanted, buf_len, ends_len } => {
            let (mut bytes, mut ends) = (vec![0; buf_len], vec![0; ends_len]);
            let wanted = asked(wanted);
            both(|| lent::texts(bundle, steps, wanted, &mut bytes, &mut ends), || ask.answer())
        }
    };
    row(&format!("{name}: {kind}"), ours, theirs);
}
