//! The target list: its names checked and looked up (refusal 12).

use crate::limits::{PATH, TARGETS};
use crate::Refusal;

/// The file numbers of the listed names, in order.
pub fn read(list: &[u8], number: impl Fn(&[u8]) -> Option<u32>) -> Result<Vec<u32>, Refusal> {
    // An over-long list or an unended last name is place 0, before the names.
    Refusal::when(list.len() > TARGETS, 12, 0)?;
    Refusal::when(list.last().is_some_and(|&byte| byte != b'\n'), 12, 0)?;
    let mut start = 0;
    list.split_inclusive(|&byte| byte == b'\n')
        .map(|line| {
            let name = &line[..line.len() - 1];
            let sound = (1..=PATH).contains(&name.len());
            let file = number(name).filter(|_| sound).ok_or(Refusal::new(12, start));
            start += line.len();
            file
        })
        .collect()
}
