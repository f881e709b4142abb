//! The status: what a Rust caller gets, lent buffers, and records that no events give.

use kestrenyo::lent::{self, Said, StatusRecord};
use kestrenyo::{Place, Refusal, Status, TEXT};

#[test]
fn lines() {
    let mut status = Status::new(7, 4);
    assert_eq!(status.line(b"%o %c %e"), Ok(b"? ? 0.000".to_vec()));
    for _ in 0..7 {
        status.started(0);
    }
    for _ in 0..7 {
        status.finished(35);
    }
    assert_eq!(status.line(b"%f %o %c"), Ok(b"7 199.9 ?".to_vec()));
    status.at(7_000);
    assert_eq!(status.line(b"%e %o%%"), Ok(b"7.000 1.0%".to_vec()));
    assert_eq!(status.line(b"abc%"), Err(Refusal::BadPlaceholder(3)));
    assert_eq!(status.line(&[b'x'; TEXT + 1]), Err(Refusal::LongLine));
    assert_eq!((Refusal::LongLine.number(), Refusal::LongLine.place()), (17, Place::Number(0)));
    assert_eq!(status.line(&[b'x'; TEXT]).map(|line| line.len()), Ok(TEXT));
}

#[test]
fn lent_buffers() {
    let status = Status::new(3, 1).record();
    let mut short = [7; TEXT - 1];
    assert_eq!(lent::status_line(status, b"%!", &mut short), Said { number: 1, text: 0, value: 0 });
    assert_eq!(short, [7; TEXT - 1]);
    for (format, said) in [
        (&b"%t"[..], Said { number: 0, text: 0, value: 1 }),
        (b"ab%", Said { number: 21, text: 0, value: 2 }),
        (&[b'x'; TEXT + 1], Said { number: 17, text: 0, value: 0 }),
    ] {
        let mut buffer = [7; TEXT + 5];
        assert_eq!(lent::status_line(status, format, &mut buffer), said);
        let written = if said.number == 0 { said.value } else { 0 };
        assert_eq!(buffer[..written], b"3"[..written]);
        assert!(buffer[written..].iter().all(|&byte| byte == 0));
    }
}

/// Numbers that no sequence of events gives count as the nearest that one can give.
#[test]
fn any_record() {
    let odd = StatusRecord {
        total: 5,
        jobs: u32::MAX,
        started: 9,
        finished: 8,
        last: u32::MAX,
        overall_known: 9,
        current_known: 0,
        elapsed: f64::NAN,
        overall: f64::INFINITY,
        current: -1.0,
        window: [f64::NAN; 16],
    };
    let line = |status| {
        let mut buffer = [0; TEXT];
        let said = lent::status_line(status, b"%s %r %u %f %o %c %e", &mut buffer);
        assert_eq!(said.number, 0);
        String::from_utf8(buffer[..said.value].to_vec()).unwrap()
    };
    assert_eq!(line(odd), "5 0 0 5 3355443.1 ? 86400.000");
    assert_eq!(line(StatusRecord { overall: f64::NAN, ..odd }), "5 0 0 5 0.0 ? 86400.000");
    assert_eq!(line(StatusRecord { overall: -3.0, finished: 2, ..odd }), "5 3 0 2 0.0 ? 86400.000");
    let finished = lent::status_finished(StatusRecord { finished: 2, ..odd }, 0);
    assert_eq!((finished.started, finished.finished, finished.last), (5, 3, 86_400_000));
    assert_eq!((finished.elapsed, finished.current_known), (86_400.0, 0));
    assert_eq!(lent::status_started(odd, 0).started, 5);
}
