//! The record of a step: the words that it changed as they were before it, or all words where that is shorter.

use crate::image::WORDS;

/// The words of an image.
type Image = [u32; WORDS];

/// The first two bytes of a record.
const MARK: [u8; 2] = *b"BK";

/// The bytes of a record beside its words: the mark and the number at its end.
const AROUND: usize = 4;

/// The bytes of a place with its word.
const PAIR: usize = 6;

/// The most changed words that are told one by one.
pub const MOST_PAIRS: usize = 10_922;

/// The number at the end of a record that has all words.
pub const WHOLE: u16 = 65_535;

/// The bytes of a record that has all words, which no other is longer than.
pub const LONGEST: usize = AROUND + 4 * WORDS;

/// The record of a step from one image to another.
pub fn record(from: &Image, to: &Image) -> Vec<u8> {
    let changed: Vec<usize> = (0..WORDS).filter(|&place| from[place] != to[place]).collect();
    let mut bytes = MARK.to_vec();
    if changed.len() > MOST_PAIRS {
        bytes.extend(from.iter().flat_map(|word| word.to_le_bytes()));
        bytes.extend(WHOLE.to_le_bytes());
        return bytes;
    }
    for &place in &changed {
        bytes.extend((place as u16).to_le_bytes());
        bytes.extend(from[place].to_le_bytes());
    }
    bytes.extend((changed.len() as u16).to_le_bytes());
    bytes
}

/// The bytes of the whole last record before the used length of a log, if there is one.
pub fn last(log: &[u8], used: u64) -> Option<&[u8]> {
    let log = log.get(..usize::try_from(used).ok()?)?;
    let number = u16::from_le_bytes(*log.last_chunk()?);
    let length = match (number, usize::from(number)) {
        (WHOLE, _) => LONGEST,
        (_, pairs) if pairs <= MOST_PAIRS => AROUND + PAIR * pairs,
        _ => return None,
    };
    let record = &log[log.len().checked_sub(length)?..];
    record.starts_with(&MARK).then_some(record)
}

/// The words that a whole record and the present image give; a place that no image has is passed over.
pub fn before(record: &[u8], present: &Image) -> Box<Image> {
    let told = &record[MARK.len()..record.len() - 2];
    let mut words = Box::new(*present);
    if record.ends_with(&WHOLE.to_le_bytes()) {
        let (all, _) = told.as_chunks();
        words.iter_mut().zip(all).for_each(|(word, bytes)| *word = u32::from_le_bytes(*bytes));
        return words;
    }
    let (pairs, _) = told.as_chunks::<PAIR>();
    for &[low, high, word @ ..] in pairs {
        let place = usize::from(u16::from_le_bytes([low, high]));
        if let Some(at) = words.get_mut(place) {
            *at = u32::from_le_bytes(word);
        }
    }
    words
}
