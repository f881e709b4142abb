//! The layout of texts by name that document 02 takes from the card: of manifests in a bundle, and of
//! header lists.

/// The bytes of the header and of each record, and of a number.
const HEADER: usize = 16;
const RECORD: usize = 16;
const NUMBER: usize = 4;

/// The most bytes of a name.
pub(crate) const NAME: usize = 255;

/// The most bytes in all: as many as the four bytes for the total length can say.
pub(crate) const BYTES: usize = u32::MAX as usize;

/// A name and its text.
pub(crate) type Record<'a> = (&'a [u8], &'a [u8]);

/// How many bytes one more record takes.
pub(crate) fn taken((name, text): Record) -> usize {
    (RECORD + name.len()).saturating_add(text.len())
}

/// All records, if the bytes can be read as such.
pub(crate) fn read(bytes: &[u8]) -> Option<Vec<Record<'_>>> {
    let names = number(bytes, 8)?;
    let (heads, behind) = (bytes.get(HEADER..names)?, bytes.get(names..)?);
    let part = |at: usize, length: usize| behind.get(at..)?.get(..length);
    let record = |head: &[u8]| {
        let name = part(number(head, 0)?, number(head, NUMBER)?)?;
        let text = part(number(head, 2 * NUMBER)?, number(head, 3 * NUMBER)?)?;
        Some((name, text))
    };
    heads.chunks_exact(RECORD).map(record).collect()
}

/// The bytes of these records, which are [`BYTES`] at most.
pub(crate) fn written(records: &[Record]) -> Vec<u8> {
    let length = |part: fn(&Record) -> usize| records.iter().map(part).sum::<usize>();
    let names = HEADER + RECORD * records.len();
    let (of_names, of_texts) = (length(|(name, _)| name.len()), length(|(_, text)| text.len()));
    let mut bytes = Vec::with_capacity(names + of_names + of_texts);
    for number in [records.len(), HEADER, names, names + of_names + of_texts] {
        put(&mut bytes, number);
    }
    let (mut name_at, mut text_at) = (0, of_names);
    for (name, text) in records {
        for number in [name_at, name.len(), text_at, text.len()] {
            put(&mut bytes, number);
        }
        name_at += name.len();
        text_at += text.len();
    }
    records.iter().for_each(|(name, _)| bytes.extend_from_slice(name));
    records.iter().for_each(|(_, text)| bytes.extend_from_slice(text));
    bytes
}

/// The number of four bytes at `at`, the lowest first.
fn number(bytes: &[u8], at: usize) -> Option<usize> {
    let four = bytes.get(at..)?.first_chunk()?;
    usize::try_from(u32::from_le_bytes(*four)).ok()
}

/// Four bytes of a number; none that is put is above [`BYTES`].
fn put(bytes: &mut Vec<u8>, number: usize) {
    bytes.extend(number.to_le_bytes().into_iter().take(NUMBER));
}
