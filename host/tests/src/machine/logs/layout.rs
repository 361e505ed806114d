//! The two forms of a record, for images that differ in any number of words: a step of today's machine does not change enough for the second.

use crate::report::Outcome;
use reference::image::WORDS;
use reference::log::{before, last, record, LONGEST, MOST_PAIRS};

/// The numbers of changed words, each with the bytes of its record.
const LENGTHS: [(usize, usize); 7] = [
    (0, 4),
    (1, 10),
    (5, 34),
    (MOST_PAIRS - 1, 65_530),
    (MOST_PAIRS, 65_536),
    (MOST_PAIRS + 1, LONGEST),
    (WORDS, LONGEST),
];

/// Each number of changed words: the record's length and first and last bytes, and the way back from the end of a log.
pub fn outcome() -> Outcome {
    let mut outcome = Outcome::default();
    let from: [u32; WORDS] = std::array::from_fn(|place| 0x0102_0304 + 7 * place as u32);
    for (count, length) in LENGTHS {
        let changed = |place: usize| (place * 5 + 3) % WORDS < count;
        let to = std::array::from_fn(|place| from[place] ^ u32::from(changed(place)));
        let made = record(&from, &to);
        let name = || format!("a record of {count} words");
        let number = if length == LONGEST { [255; 2] } else { (count as u16).to_le_bytes() };
        let ends = (made.len(), made[..2].to_vec(), made[made.len() - 2..].to_vec());
        outcome.same(name, &[], (length, b"BK".to_vec(), number.to_vec()), ends);
        let log = [&b"before"[..], &made, b"after"].concat();
        let found = last(&log, (6 + length) as u64);
        outcome.same(name, &[], Some(&made[..]), found);
        outcome.words(name, &[], &from, &before(&made, &to)[..]);
    }
    outcome
}
