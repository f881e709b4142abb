//! The status line: the cases through the library with the buffer watched, and random sequences of
//! events, on which the library's record and the second planner's are compared bit for bit after
//! each event. `STATUS` in the environment runs another number of sequences, from seed `FROM` on.

use compare::settings::setting;
use kestrenyo::lent::{self, Said, StatusRecord};
use second::rng::Rng;
use second::status::{Event, Status};
use second::status_cases::{events, long_formats, other_bytes, CASES};

const STATUS: u64 = 20_000;

const TEXT: usize = 8_192;

fn after(record: StatusRecord, event: Event) -> StatusRecord {
    match event {
        Event::Started(time) => lent::status_started(record, time),
        Event::Finished(time) => lent::status_finished(record, time),
        Event::Printed(time) => lent::status_at(record, time),
    }
}

/// What the library answers, with every byte of the buffer looked at.
fn line(record: StatusRecord, format: &[u8], room: usize) -> Result<Vec<u8>, (usize, usize)> {
    let mut buffer = vec![0xa5; room];
    let Said { number, text, value } = lent::status_line(record, format, &mut buffer);
    assert_eq!(text, 0, "a number by itself");
    let written = if number == 0 { value } else { 0 };
    if number == 1 {
        assert!(buffer.iter().all(|&byte| byte == 0xa5), "1 touches nothing");
    } else {
        assert!(buffer[written..].iter().all(|&byte| byte == 0), "zero beyond");
    }
    buffer.truncate(written);
    if number == 0 {
        Ok(buffer)
    } else {
        Err((number, value))
    }
}

fn both(total: u32, jobs: u32, events: &[Event]) -> (StatusRecord, Status) {
    let (mut ours, mut theirs) = (lent::status(total, jobs), Status::new(total, jobs));
    for &event in events {
        ours = after(ours, event);
        theirs.event(event);
    }
    (ours, theirs)
}

#[test]
fn all_cases_pass() {
    for case in CASES {
        let (ours, _) = both(case.total, case.jobs, &events(case.events));
        let line = line(ours, case.format.as_bytes(), TEXT);
        let line = line.map(|line| String::from_utf8(line).expect("text"));
        assert_eq!(line.as_deref().map_err(|&place| place), case.right, "{}", case.pins);
    }
}

#[test]
fn lines_at_the_limit() {
    let record = lent::status(1_000_000, 1);
    for (format, right) in long_formats() {
        for room in [TEXT, TEXT + 1, 3 * TEXT] {
            let line = line(record, &format, room);
            assert_eq!(line.map(|line| line.len()), right, "{} bytes", format.len());
        }
        for room in [0, 1, TEXT - 1] {
            assert_eq!(line(record, &format, room), Err((1, 0)));
        }
    }
}

#[test]
fn other_placeholders() {
    for byte in other_bytes() {
        let format = [b'a', b'%', byte, b'%', b's'];
        assert_eq!(line(lent::status(1, 1), &format, TEXT), Err((21, 1)), "{byte}");
    }
}

/// The record of the library says what the second planner's status says, to the last bit.
fn is_same(ours: StatusRecord, theirs: &Status) -> bool {
    let rate = |known: u32, rate: f64| (known != 0).then_some(rate.to_bits());
    let (started, _, finished) = theirs.counts();
    let (overall, current) = theirs.rates();
    (ours.started, ours.finished, u64::from(ours.last))
        == (started, finished, theirs.milliseconds())
        && ours.elapsed.to_bits() == theirs.elapsed().to_bits()
        && rate(ours.overall_known, ours.overall) == overall.map(f64::to_bits)
        && rate(ours.current_known, ours.current) == current.map(f64::to_bits)
}

/// A time near the last one, before it, equal to it, anywhere in the day, or past it.
fn time(random: &mut Rng, last: u64) -> u64 {
    match random.below(20) {
        0 => random.number(),
        1 => random.number() % 86_400_010,
        2 => last.saturating_sub(random.number() % 1_000),
        3..6 => last,
        6..10 => last + random.number() % 3,
        10..18 => last + random.number() % 2_000,
        _ => last + random.number() % 1_000_000,
    }
}

fn event(random: &mut Rng, last: u64) -> Event {
    let time = time(random, last);
    match random.below(9) {
        0..4 => Event::Started(time),
        4..8 => Event::Finished(time),
        _ => Event::Printed(time),
    }
}

fn format(random: &mut Rng) -> Vec<u8> {
    let mut format = Vec::new();
    for _ in 0..random.below(12) {
        match random.below(12) {
            0 => format.push(random.below(256) as u8),
            1 if random.chance(30) => format.extend([b'%', random.below(256) as u8]),
            1 => format.extend(b"x%%"),
            _ => format.extend([b'%', b"stprufoce%"[random.below(10)]]),
        }
    }
    format
}

#[test]
fn random_events() {
    let (count, from) = (setting("STATUS", STATUS), setting("FROM", 0));
    let (mut known, mut refused, mut compared) = (0u64, 0u64, 0u64);
    for seed in from..from + count {
        let mut random = Rng::new(seed.wrapping_mul(0x2545_f491_4f6c_dd1d));
        let total = [0, 1, 5, 40, 2_048, u32::MAX][random.below(6)];
        let jobs = [0, 1, 2, 3, 15, 16, 17, u32::MAX][random.below(8)];
        let (mut ours, mut theirs) = both(total, jobs, &[]);
        for _ in 0..random.below(60) {
            let event = event(&mut random, theirs.milliseconds());
            ours = after(ours, event);
            theirs.event(event);
            assert!(is_same(ours, &theirs), "seed {seed}: {event:?}: {ours:?} {theirs:?}");
            known += u64::from(ours.current_known);
            compared += 1;
        }
        let format = format(&mut random);
        let (given, right) = (line(ours, &format, TEXT), theirs.line(&format));
        refused += u64::from(given.is_err());
        assert_eq!(given, right, "seed {seed}: {format:?} {theirs:?}");
    }
    println!("{compared} events, {known} with a current rate, {refused} lines refused");
    assert!(count < 1_000 || (known > compared / 10 && refused > count / 20));
}

/// "within 1 of 10,000 times the steps divided by the milliseconds, cut downwards", as printed.
#[test]
fn tenths_are_near_the_quotient() {
    let mut random = Rng::new(setting("FROM", 0));
    for steps in 1..=2_048u32 {
        let mut record = lent::status(steps, 1);
        for _ in 0..steps {
            record = lent::status_finished(lent::status_started(record, 0), 0);
        }
        for turn in 0..16 {
            let most = [100, 10_000, 1_000_000, 86_400_000][turn % 4];
            let milliseconds = 1 + random.number() % most;
            let shown = line(lent::status_at(record, milliseconds), b"%o", TEXT).expect("a line");
            let digits: String = shown.iter().filter(|&&b| b != b'.').map(|&b| b as char).collect();
            let tenths: u64 = digits.parse().expect("digits");
            let whole = 10_000 * u64::from(steps) / milliseconds;
            assert!(tenths.abs_diff(whole) <= 1, "{steps} in {milliseconds} ms: {tenths}");
        }
    }
}
