//! The status line of the second planner: the cases, the limits, and the bound on the tenths.

use second::rng::Rng;
use second::status::{tenths, Event, Status, DAY};
use second::status_cases::{events, long_formats, other_bytes, CASES};

fn status(total: u32, jobs: u32, events: &[Event]) -> Status {
    let mut status = Status::new(total, jobs);
    for &event in events {
        status.event(event);
    }
    status
}

#[test]
fn all_cases_pass() {
    for case in CASES {
        let line = status(case.total, case.jobs, &events(case.events)).line(case.format.as_bytes());
        let line = line.map(|line| String::from_utf8(line).expect("text"));
        assert_eq!(line.as_deref().map_err(|&place| place), case.right, "{}", case.pins);
    }
}

#[test]
fn lines_at_the_limit() {
    for (format, right) in long_formats() {
        let line = status(1_000_000, 1, &[]).line(&format);
        assert_eq!(line.map(|line| line.len()), right, "{} bytes", format.len());
    }
}

#[test]
fn other_placeholders() {
    for byte in other_bytes() {
        let format = [b'a', b'%', byte, b'%', b's'];
        assert_eq!(status(1, 1, &[]).line(&format), Err((21, 1)), "{byte}");
    }
}

/// "within 1 of 10,000 times the steps divided by the milliseconds, cut downwards"
#[test]
fn tenths_are_near_the_quotient() {
    let mut random = Rng::new(6);
    let mut off = 0;
    for steps in 1..=2_048 {
        for turn in 0..200 {
            let most = [100, 10_000, 1_000_000, DAY][turn % 4];
            let milliseconds = 1 + random.number() % most;
            let given = tenths(steps as f64 / (milliseconds as f64 / 1000.0));
            let whole = 10_000 * steps / milliseconds;
            assert!(given.abs_diff(whole) <= 1, "{steps} in {milliseconds} ms");
            off += u32::from(given != whole);
        }
    }
    assert!(off > 0, "some are one less");
}
