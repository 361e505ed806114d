//! Logged runs and steps back on the words, with one copy of the image beside them.

use super::code::{activation, Code};
use super::{fit, run, Words};
use crate::image::{FRAME, FRAMES};
use crate::log::{LONGEST, MOST_PAIRS, WHOLE};
use crate::machine::Outcome;

/// The words that are compared at once; most pieces of two images are alike.
const PIECE: usize = 32;

/// The bytes of a record beside its words, and those of a place with its word.
const AROUND: usize = 4;
const PAIR: usize = 6;

/// Where the activations of a state end, and where its frames do; the words behind are zero.
fn filled(words: &Words) -> [usize; 2] {
    let count = words[2] as usize;
    let frames: usize = (0..count).map(|n| words[activation(n) + 1] as usize).sum();
    [activation(count), FRAMES + FRAME * frames]
}

/// An image before a step with its filled parts, and the places that the step changed.
struct Before {
    words: Box<Words>,
    filled: [usize; 2],
    changed: Vec<u16>,
}

impl Before {
    /// Finds the words that are others now, among those that one of the two states fills.
    fn compare(&mut self, now: &Words) {
        self.changed.clear();
        let after = filled(now);
        for (part, start) in [0, FRAMES].into_iter().enumerate() {
            let end = self.filled[part].max(after[part]).next_multiple_of(PIECE);
            let old = self.words[start..end].chunks_exact(PIECE);
            let pieces = old.zip(now[start..end].chunks_exact(PIECE));
            for (number, (old, new)) in pieces.enumerate().filter(|(_, (old, new))| old != new) {
                let places = (0..PIECE).filter(|&i| old[i] != new[i]);
                self.changed.extend(places.map(|i| (start + PIECE * number + i) as u16));
            }
        }
        self.filled = after;
    }

    /// The bytes of the step's record.
    fn length(&self) -> usize {
        match self.changed.len() {
            count if count > MOST_PAIRS => LONGEST,
            count => AROUND + PAIR * count,
        }
    }

    /// Writes the step's record into as many bytes as it has.
    fn put(&self, room: &mut [u8]) {
        let (inner, number) = room.split_at_mut(room.len() - 2);
        let (mark, told) = inner.split_at_mut(2);
        mark.copy_from_slice(b"BK");
        if self.changed.len() > MOST_PAIRS {
            let (all, _) = told.as_chunks_mut();
            all.iter_mut().zip(&*self.words).for_each(|(to, word)| *to = word.to_le_bytes());
            return number.copy_from_slice(&WHOLE.to_le_bytes());
        }
        let (pairs, _) = told.as_chunks_mut::<PAIR>();
        for (pair, &place) in pairs.iter_mut().zip(&self.changed) {
            pair[..2].copy_from_slice(&place.to_le_bytes());
            pair[2..].copy_from_slice(&self.words[usize::from(place)].to_le_bytes());
        }
        number.copy_from_slice(&(self.changed.len() as u16).to_le_bytes());
    }

    /// Copies the words at the changed places from one image to another.
    fn copy(places: &[u16], from: &Words, to: &mut Words) {
        for place in places.iter().map(|&place| usize::from(place)) {
            to[place] = from[place];
        }
    }
}

/// Runs the fit state in the words on with a record of each step; gives the outcome, the steps and the used length.
pub fn run_logged(
    code: &Code,
    words: &mut Words,
    allowance: u64,
    log: &mut [u8],
    used: u64,
) -> (Outcome, u64, u64) {
    let mut before = Before { words: Box::new(*words), filled: filled(words), changed: Vec::new() };
    let (mut steps, mut after) = (0, used);
    while steps < allowance {
        match run::run(code, words, 1) {
            (outcome, 0) => return (outcome, steps, after),
            _ => before.compare(words),
        }
        let room = usize::try_from(after).ok().and_then(|at| log.get_mut(at..));
        let Some(room) = room.and_then(|rest| rest.get_mut(..before.length())) else {
            Before::copy(&before.changed, &before.words, words);
            return (Outcome::LogFull, steps, after);
        };
        before.put(room);
        after += room.len() as u64;
        steps += 1;
        Before::copy(&before.changed, words, &mut before.words);
    }
    (run::run(code, words, 0).0, steps, after)
}

/// The whole last record before the used length of a log, without its mark and its number.
fn last(log: &[u8], used: u64) -> Option<(&[u8], u16)> {
    let log = log.get(..usize::try_from(used).ok()?)?;
    let (log, number) = log.split_last_chunk()?;
    let number = u16::from_le_bytes(*number);
    let told = match usize::from(number) {
        _ if number == WHOLE => LONGEST - AROUND,
        count if count <= MOST_PAIRS => PAIR * count,
        _ => return None,
    };
    let (log, told) = log.split_at(log.len().checked_sub(told)?);
    log.ends_with(b"BK").then_some((told, number))
}

/// Takes the fit state in the words back by the log's last record and gives the used length before it, if the record leads back.
pub fn step_back(code: &Code, words: &mut Words, log: &[u8], used: u64) -> Option<u64> {
    let (told, number) = last(log, used)?;
    let mut earlier = Box::new(*words);
    if number == WHOLE {
        let (all, _) = told.as_chunks();
        earlier.iter_mut().zip(all).for_each(|(word, bytes)| *word = u32::from_le_bytes(*bytes));
    }
    let (pairs, _) = told.as_chunks::<PAIR>();
    for &[low, high, word @ ..] in pairs.iter().filter(|_| number != WHOLE) {
        let place = usize::from(u16::from_le_bytes([low, high]));
        if let Some(at) = earlier.get_mut(place) {
            *at = u32::from_le_bytes(word);
        }
    }
    if !fit::is_fit(code, &earlier) {
        return None;
    }
    let mut next = earlier.clone();
    let leads = run::run(code, &mut next, 1).1 == 1 && *next == *words;
    leads.then(|| {
        *words = *earlier;
        used - (told.len() + AROUND) as u64
    })
}
