//! The line on the little display, from document 02's request [6] and its readings: events, the
//! rates that they give, and the placeholders.

use std::collections::VecDeque;

/// A time above this counts as this, in milliseconds.
pub const DAY: u64 = 86_400_000;

/// The most finish times that are kept.
pub const WINDOW: usize = 16;

/// What happens to a status, each at a time in milliseconds from the start.
#[derive(Debug, Clone, Copy, PartialEq, Eq)]
pub enum Event {
    /// A step starts.
    Started(u64),
    /// A step finishes.
    Finished(u64),
    /// A line is printed.
    Printed(u64),
}

/// A status: counts of steps, the last time, and the finish times that count.
#[derive(Debug, Clone, PartialEq)]
pub struct Status {
    total: u32,
    started: u32,
    finished: u32,
    last: u64,
    overall: Option<f64>,
    current: Option<f64>,
    /// The oldest first, as many as jobs but at most sixteen.
    window: VecDeque<f64>,
    room: usize,
}

/// So many in so many milliseconds, by the second; unknown where no time has passed.
fn rate(count: usize, milliseconds: f64) -> Option<f64> {
    let seconds = milliseconds / 1000.0;
    (seconds > 0.0).then(|| count as f64 / seconds)
}

/// Ten times a rate, cut downwards.
pub fn tenths(rate: f64) -> u64 {
    (rate * 10.0) as u64
}

impl Status {
    /// A build of so many steps, with so many jobs at once.
    pub fn new(total: u32, jobs: u32) -> Status {
        Status {
            total,
            started: 0,
            finished: 0,
            last: 0,
            overall: None,
            current: None,
            window: VecDeque::new(),
            room: WINDOW.min(jobs as usize),
        }
    }

    /// An event. "A start past the total or a finish with none running changes nothing."
    pub fn event(&mut self, event: Event) {
        let time = match event {
            Event::Started(_) if self.started >= self.total => return,
            Event::Finished(_) if self.finished >= self.started => return,
            Event::Started(time) | Event::Finished(time) | Event::Printed(time) => time,
        };
        self.last = self.last.max(time.min(DAY));
        match event {
            Event::Started(_) => self.started += 1,
            Event::Finished(_) => {
                self.finished += 1;
                self.keep();
            }
            Event::Printed(_) => {}
        }
        self.overall = rate(self.finished as usize, self.last as f64);
    }

    /// Keeps the time of a finish, and gives the rate of those that are kept.
    fn keep(&mut self) {
        self.window.push_back(self.last as f64);
        while self.window.len() > self.room {
            self.window.pop_front();
        }
        let ends = self.window.back().zip(self.window.front());
        self.current = ends.and_then(|(last, first)| rate(self.window.len(), last - first));
    }

    /// The milliseconds of the last time.
    pub fn milliseconds(&self) -> u64 {
        self.last
    }

    /// Steps started, running and finished.
    pub fn counts(&self) -> (u32, u32, u32) {
        (self.started, self.started - self.finished, self.finished)
    }

    /// The elapsed time in seconds.
    pub fn elapsed(&self) -> f64 {
        self.last as f64 / 1000.0
    }

    /// The overall and the current rate.
    pub fn rates(&self) -> (Option<f64>, Option<f64>) {
        (self.overall, self.current)
    }

    /// What a placeholder stands for, by the byte behind its `%`.
    fn placeholder(&self, key: u8) -> Option<String> {
        let shown = |rate: Option<f64>| match rate.map(tenths) {
            Some(tenths) => format!("{}.{}", tenths / 10, tenths % 10),
            None => "?".to_string(),
        };
        let percent = || match self.total {
            0 => 100,
            total => u64::from(self.started) * 100 / u64::from(total),
        };
        Some(match key {
            b's' => self.started.to_string(),
            b't' => self.total.to_string(),
            b'p' => percent().to_string(),
            b'r' => (self.started - self.finished).to_string(),
            b'u' => (self.total - self.started).to_string(),
            b'f' => self.finished.to_string(),
            b'o' => shown(self.overall),
            b'c' => shown(self.current),
            b'e' => format!("{}.{:03}", self.last / 1000, self.last % 1000),
            b'%' => "%".to_string(),
            _ => return None,
        })
    }

    /// The line that a format gives, or a refusal's number and place: 21, then 17. A buffer that is
    /// too small, which is 1 before these, is the caller's to find.
    pub fn line(&self, format: &[u8]) -> Result<Vec<u8>, (usize, usize)> {
        let mut line = Vec::new();
        let mut rest = format;
        while let Some((&byte, behind)) = rest.split_first() {
            if byte != b'%' {
                line.push(byte);
                rest = behind;
                continue;
            }
            let place = format.len() - rest.len();
            let (&key, behind) = behind.split_first().ok_or((21, place))?;
            line.extend(self.placeholder(key).ok_or((21, place))?.bytes());
            rest = behind;
        }
        match line.len() > crate::limits::TEXT {
            true => Err((17, 0)),
            false => Ok(line),
        }
    }
}
