//! The time card: its layout checked (refusal 11) and its records read.

use crate::limits::{CARD, PATH, RECORDS, TIME};
use crate::Refusal;

/// The card's records in order, each a name and its time.
pub fn read(card: &[u8]) -> Result<Vec<(&[u8], u64)>, Refusal> {
    records(card).ok_or(Refusal::new(11, 0))
}

fn records(card: &[u8]) -> Option<Vec<(&[u8], u64)>> {
    let count = number(card, 0)?;
    if card.len() > CARD || count > RECORDS {
        return None;
    }
    let names_at = 16 + 16 * count;
    let header = [number(card, 4)?, number(card, 8)?, number(card, 12)?];
    if header != [16, names_at, card.len()] {
        return None;
    }
    let names = card.get(names_at..)?;
    let mut records = Vec::with_capacity(count);
    let mut end = 0;
    for record in card[16..names_at].chunks_exact(16) {
        let length = number(record, 4)?;
        let time = u64::from_le_bytes(record[8..].try_into().ok()?);
        if number(record, 0)? != end || !(1..=PATH).contains(&length) || !(1..=TIME).contains(&time)
        {
            return None;
        }
        records.push((names.get(end..end + length)?, time));
        end += length;
    }
    // Slices compare by bytes, a prefix first: the order in which names rise.
    let rising = records.windows(2).all(|pair| pair[0].0 < pair[1].0);
    (end == names.len() && rising).then_some(records)
}

/// The little-endian number of 4 bytes at `at`.
fn number(bytes: &[u8], at: usize) -> Option<usize> {
    let four = bytes.get(at..at + 4)?.try_into().ok()?;
    usize::try_from(u32::from_le_bytes(four)).ok()
}

/// The bytes of the card with these records, whose names must rise.
pub fn write(records: &[(&[u8], u64)]) -> Vec<u8> {
    let names: usize = records.iter().map(|(name, _)| name.len()).sum();
    let names_at = 16 + 16 * records.len();
    let mut card = Vec::with_capacity(names_at + names);
    let push = |card: &mut Vec<u8>, number: usize| card.extend((number as u32).to_le_bytes());
    for number in [records.len(), 16, names_at, names_at + names] {
        push(&mut card, number);
    }
    let mut offset = 0;
    for (name, time) in records {
        push(&mut card, offset);
        push(&mut card, name.len());
        card.extend(time.to_le_bytes());
        offset += name.len();
    }
    records.iter().for_each(|(name, _)| card.extend_from_slice(name));
    card
}
