//! Cases of the status line. The answers come from document 02's request [6] and readings 22 to 24;
//! each says which sentence it pins.

use crate::status::Event;

/// What is given, or a refusal's number and place.
pub type Told<T> = Result<T, (usize, usize)>;

/// What a format gives after some events.
pub struct Case {
    /// The sentence or reading.
    pub pins: &'static str,
    pub total: u32,
    pub jobs: u32,
    /// `s`, `f` or `p` with a time, for a start, a finish, a printing; `*n` repeats one.
    pub events: &'static str,
    pub format: &'static str,
    /// The line, or a refusal's number and place.
    pub right: Told<&'static str>,
}

const fn case(
    pins: &'static str,
    (total, jobs): (u32, u32),
    events: &'static str,
    format: &'static str,
    right: Told<&'static str>,
) -> Case {
    Case { pins, total, jobs, events, format, right }
}

const ALL: &str = "%s %t %p %r %u %f %o %c %e %%";

pub const CASES: &[Case] = &[
    case("the ten placeholders", (8, 2), "s0 s100 f500 p1000", ALL, Ok("2 8 25 1 6 1 1.0 ? 1.000 %")),
    case("before any event", (8, 2), "", ALL, Ok("0 8 0 0 8 0 ? ? 0.000 %")),
    case("other bytes stand for themselves", (0, 0), "", "[a]\n\0", Ok("[a]\n\0")),
    case("an empty format is an empty line", (3, 1), "", "", Ok("")),
    case("`%%` begins no placeholder", (3, 1), "", "%%s%%%s", Ok("%s%0")),
    // rates
    case("7 finished at 35 ms is `199.9`", (7, 4), "s0*7 f35*7", "%o", Ok("199.9")),
    case("tenths are cut, not rounded", (2, 1), "s0*2 f3000*2", "%o", Ok("0.6")),
    case("unknown when no time has passed", (2, 2), "s0*2 f0", "%o %c %e", Ok("? ? 0.000")),
    case("none finished in some time is no unknown rate", (2, 2), "s5", "%o %c", Ok("0.0 ?")),
    case("one millisecond is some time", (2, 2), "s0 f1", "%o", Ok("1000.0")),
    case("the overall rate goes by the time of printing", (2, 2), "s0 f1000 p4000", "%o", Ok("0.2")),
    case("so does the elapsed time", (2, 2), "s0 f1000 p4321", "%e", Ok("4.321")),
    case("the current rate does not", (4, 2), "s0*4 f1000 f2000 p9000", "%c", Ok("2.0")),
    case("equal finish times are unknown", (4, 2), "s0*4 f1000 f2000 f2000", "%c", Ok("?")),
    case("one time is unknown", (4, 4), "s0*4 f1000", "%c", Ok("?")),
    case("two of four", (4, 4), "s0*4 f1000 f1500", "%c", Ok("4.0")),
    case("no jobs keep no time", (4, 0), "s0*4 f1000 f1500", "%c", Ok("?")),
    case("one job keeps one", (4, 1), "s0*4 f1000 f1500", "%c", Ok("?")),
    case(
        "sixteen jobs, sixteen finishes",
        (20, 16),
        "s0*20 f1000 f2000 f2100 f2200 f2300 f2400 f2500 f2600 f2700 f2800 f2900 f3000 f3100 f3200 f3300 f3400",
        "%c",
        Ok("6.6"),
    ),
    case(
        "sixteen jobs, seventeen finishes: the first is dropped",
        (20, 16),
        "s0*20 f1000 f2000 f2100 f2200 f2300 f2400 f2500 f2600 f2700 f2800 f2900 f3000 f3100 f3200 f3300 f3400 f3500",
        "%c",
        Ok("10.6"),
    ),
    case(
        "seventeen jobs, seventeen finishes: at most sixteen",
        (20, 17),
        "s0*20 f1000 f2000 f2100 f2200 f2300 f2400 f2500 f2600 f2700 f2800 f2900 f3000 f3100 f3200 f3300 f3400 f3500",
        "%c",
        Ok("10.6"),
    ),
    case("two jobs, three finishes", (4, 2), "s0*4 f0 f1000 f1100", "%c", Ok("20.0")),
    // counts
    case("100 for a total of 0", (0, 3), "s5", "%p %s %u %e", Ok("100 0 0 0.000")),
    case("a percentage is cut", (3, 3), "s0", "%p", Ok("33")),
    case("a percentage is cut", (3, 3), "s0*2", "%p", Ok("66")),
    case("a percentage is of those started", (3, 3), "s0*3 f9", "%p", Ok("100")),
    case("a start past the total changes nothing", (1, 1), "s10 s50", "%s %r %e", Ok("1 1 0.010")),
    case("a finish with none running changes nothing", (1, 1), "f50 s10 f20 f99", "%f %e", Ok("1 0.020")),
    case("large counts", (4294967295, 4294967295), "s1", "%t %u %p", Ok("4294967295 4294967294 0")),
    // times
    case("a time above 86,400,000 counts as that", (2, 2), "s86400001", "%e", Ok("86400.000")),
    case("86,400,000 is itself", (2, 2), "s86400000", "%e", Ok("86400.000")),
    case("86,399,999 is itself", (2, 2), "s86399999", "%e", Ok("86399.999")),
    case("the largest time", (2, 2), "p18446744073709551615", "%e %o", Ok("86400.000 0.0")),
    case("one earlier than the last counts as the last", (3, 3), "s0*3 f2000 f1000", "%e %c %o", Ok("2.000 ? 1.0")),
    case("a printing is a time too", (3, 3), "s0 p500 s100", "%e", Ok("0.500")),
    case("an ignored event leaves the clock", (3, 3), "f500 s100", "%e", Ok("0.100")),
    case("three decimals", (1, 1), "p1", "%e", Ok("0.001")),
    case("three decimals", (1, 1), "p10050", "%e", Ok("10.050")),
    // refusals
    case("another `%` is refusal 21 there", (1, 1), "", "ab%x", Err((21, 2))),
    case("the first one counts", (1, 1), "", "%x%y", Err((21, 0))),
    case("a `%` that ends the format is 21 at it", (1, 1), "", "ab%", Err((21, 2))),
    case("a `%` that ends the format is 21 at it", (1, 1), "", "%%%", Err((21, 2))),
    case("letters have a case", (1, 1), "", "%s%S", Err((21, 2))),
    case("a newline is another byte", (1, 1), "", "%\n", Err((21, 0))),
];

/// The events of a case.
pub fn events(text: &str) -> Vec<Event> {
    let mut events = Vec::new();
    for word in text.split_whitespace() {
        let (kind, rest) = word.split_at(1);
        let (time, count) = rest.split_once('*').unwrap_or((rest, "1"));
        let time = time.parse().expect("a time");
        let event = match kind {
            "s" => Event::Started(time),
            "f" => Event::Finished(time),
            _ => Event::Printed(time),
        };
        let count: usize = count.parse().expect("a count");
        events.extend(std::iter::repeat_n(event, count));
    }
    events
}

/// Formats at the limit of a line, for a total of 1,000,000 (seven bytes), and what they give: the
/// number of bytes, or a refusal. "8,192 bytes fit", "17 last".
pub fn long_formats() -> Vec<(Vec<u8>, Told<usize>)> {
    let xs = |count: usize, tail: &str| [&vec![b'x'; count][..], tail.as_bytes()].concat();
    vec![
        (xs(8_191, ""), Ok(8_191)),
        (xs(8_192, ""), Ok(8_192)),
        (xs(8_193, ""), Err((17, 0))),
        (xs(8_185, "%t"), Ok(8_192)),
        (xs(8_186, "%t"), Err((17, 0))),
        (xs(8_192, "%%"), Err((17, 0))),
        (xs(8_187, "%e"), Ok(8_192)),
        (xs(8_188, "%e"), Err((17, 0))),
        (xs(8_191, "%o"), Ok(8_192)),
        (xs(8_192, "%o"), Err((17, 0))),
        (xs(9_000, "%t%!"), Err((21, 9_002))),
        (xs(20_000, "%"), Err((21, 20_000))),
        (b"%%".repeat(8_192), Ok(8_192)),
        (b"%%".repeat(8_193), Err((17, 0))),
    ]
}

/// The bytes that name no placeholder.
pub fn other_bytes() -> impl Iterator<Item = u8> {
    (0..=255).filter(|byte| !b"stprufoce%".contains(byte))
}
