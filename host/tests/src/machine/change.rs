//! Changes of one and of two words of an image.

use generators::rng::Rng;
use reference::image::{
    ACTIVATION, ACTIVATIONS, ACTIVATION_HEAD, FRAME, FRAMES, MOST_ACTIVATIONS, WORDS,
};

/// A word that is likely to matter in an image.
fn place(rng: &mut Rng, words: &[u32]) -> usize {
    let activations = (words[2] as usize).min(MOST_ACTIVATIONS - 1);
    let counts = words[ACTIVATIONS..FRAMES].chunks_exact(ACTIVATION).map(|a| a[1] as usize);
    let frames = counts.sum::<usize>().min(511);
    match rng.below(10) {
        0 | 1 => rng.below(7),
        2..=4 => {
            let activation = ACTIVATIONS + ACTIVATION * rng.between(0, activations);
            let vars = (words[activation + 2] as usize).min(63);
            let most = if rng.one_in(2) { 4 } else { 10 + 2 * vars };
            activation + rng.below(most)
        }
        5..=8 => {
            let most = if rng.one_in(4) { FRAME } else { 7 };
            FRAMES + FRAME * rng.between(0, frames) + rng.below(most)
        }
        _ => rng.below(WORDS),
    }
}

/// Another word in the place of an old one.
fn word(rng: &mut Rng, words: &[u32], old: u32) -> u32 {
    loop {
        let new = any_word(rng, words, old);
        if new != old {
            return new;
        }
    }
}

/// A word that may stand in the place of an old one, or the old one again.
fn any_word(rng: &mut Rng, words: &[u32], old: u32) -> u32 {
    match rng.below(10) {
        0 => 0,
        1 => old.wrapping_add(1),
        2 => old.wrapping_sub(1),
        3 => old.wrapping_add(3),
        4 => old.wrapping_sub(3),
        5 => rng.below(12) as u32,
        6 => rng.below(120) as u32,
        7 => rng.edge_word(),
        8 => old ^ (1 << rng.below(32)),
        _ => words[place(rng, words)],
    }
}

/// A word with the word that stood there.
type Old = (usize, u32);

/// Puts another word at a place.
fn put(rng: &mut Rng, words: &mut [u32], at: usize) -> Old {
    let old = (at, words[at]);
    words[at] = word(rng, words, words[at]);
    old
}

/// Gives a variable, or a frame's first slot, any value of any type.
fn revalue(rng: &mut Rng, words: &mut [u32]) -> Vec<Old> {
    let activation =
        ACTIVATIONS + ACTIVATION * rng.below((words[2] as usize).clamp(1, MOST_ACTIVATIONS));
    let vars = (words[activation + 2] as usize).min(64);
    let at = if rng.one_in(4) {
        FRAMES + FRAME * rng.below((words[activation + 1] as usize).clamp(1, 512)) + 4
    } else {
        activation + ACTIVATION_HEAD + 2 * rng.below(vars)
    };
    let old = vec![(at, words[at]), (at + 1, words[at + 1])];
    let kept = !rng.one_in(4) && words[at] != 0;
    let ty = if kept { words[at] } else { rng.below(3) as u32 };
    let word = [0, rng.edge_word(), rng.below(2) as u32][(ty as usize).min(2)];
    words[at..at + 2].copy_from_slice(&[ty, word]);
    old
}

/// The word of a value that is held, if the one that was tried is.
fn held(rng: &mut Rng, words: &[u32]) -> Option<usize> {
    let activation =
        ACTIVATIONS + ACTIVATION * rng.below((words[2] as usize).clamp(1, MOST_ACTIVATIONS));
    let vars = (words[activation + 2] as usize).min(64);
    let ty = activation + ACTIVATION_HEAD + 2 * rng.below(vars);
    (words[0] == 2 && words[ty] != 0).then_some(ty + 1)
}

/// Changes one word and gives its place with the old word.
pub fn single(rng: &mut Rng, words: &mut [u32]) -> Vec<Old> {
    let value = if rng.one_in(4) { held(rng, words) } else { None };
    let at = value.unwrap_or_else(|| place(rng, words));
    vec![put(rng, words, at)]
}

/// Changes two words, or a value of two words, and gives their places with the old words.
pub fn double(rng: &mut Rng, words: &mut [u32]) -> Vec<Old> {
    if words[0] == 2 && rng.one_in(3) {
        loop {
            let old = revalue(rng, words);
            if old.iter().any(|&(at, word)| words[at] != word) {
                return old;
            }
        }
    }
    let first = place(rng, words).min(WORDS - 2);
    let other = loop {
        let at = if rng.one_in(2) { place(rng, words) } else { first + 1 };
        if at != first {
            break at;
        }
    };
    vec![put(rng, words, first), put(rng, words, other)]
}

/// Takes changes back.
pub fn undo(words: &mut [u32], old: &[(usize, u32)]) {
    for &(at, word) in old {
        words[at] = word;
    }
}
