
// Appended to each copy of the library: answers a line with a line, with the fault of a number.

static PLANTED: std::sync::atomic::AtomicUsize = std::sync::atomic::AtomicUsize::new(0);

fn planted() -> usize {
    PLANTED.load(std::sync::atomic::Ordering::Relaxed)
}

pub fn answer(fault: usize, line: &str) -> String {
    PLANTED.store(fault, std::sync::atomic::Ordering::Relaxed);
    let answer = match line.strip_prefix("program ") {
        Some(lent) => Answer::Text(program::output(&lent.parse().unwrap())),
        None => line.parse::<Ask>().unwrap().answer(),
    };
    answer.to_string()
}
