//! The bytes of a card, from its records, and those of a card or a bundle piece by piece.

use super::escapes::Expanded;
use super::{number, Fault};
use crate::card;

/// The card of the records `NAME TIME` between commas, in this order.
pub fn card(records: &Expanded) -> Result<Vec<u8>, Fault> {
    let records = records.words(b',').into_iter().map(record);
    Ok(card::write(&records.collect::<Result<Vec<_>, _>>()?))
}

/// The last space parts the name, which may hold some, from the time.
fn record(record: &[u8]) -> Result<(&[u8], u64), Fault> {
    let cut = record.iter().rposition(|&byte| byte == b' ');
    let cut = cut.ok_or(Fault::Expected("`NAME TIME` between commas"))?;
    Ok((&record[..cut], number(&String::from_utf8_lossy(&record[cut + 1..]))?))
}

/// The bytes of pieces between spaces, whatever they make.
pub fn bytes(pieces: &Expanded) -> Result<Vec<u8>, Fault> {
    let bytes = pieces.words(b' ').into_iter().map(piece);
    Ok(bytes.collect::<Result<Vec<_>, _>>()?.concat())
}

/// A piece: `=TEXT`, or `WIDTH:NUMBER` with the lowest byte first.
fn piece(piece: &[u8]) -> Result<Vec<u8>, Fault> {
    if let Some(text) = piece.strip_prefix(b"=") {
        return Ok(text.to_vec());
    }
    let piece = String::from_utf8_lossy(piece);
    let parts = piece.split_once(':');
    let (width, value) = parts.ok_or(Fault::Expected("`WIDTH:NUMBER` or `=TEXT`"))?;
    let (width, value) = (number(width)?, number::<u64>(value)?);
    if ![1, 4, 8].contains(&width) {
        return Err(Fault::Width(width));
    }
    let bytes = value.to_le_bytes();
    if bytes[width..].iter().any(|&byte| byte != 0) {
        return Err(Fault::TooWide { value, width });
    }
    Ok(bytes[..width].to_vec())
}
