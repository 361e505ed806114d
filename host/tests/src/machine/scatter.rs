//! Memories of random words.

use generators::rng::Rng;
use reference::image::{ACTIVATION, ACTIVATIONS, ACTIVATION_HEAD, FRAME, FRAMES, WORDS};
use reference::machine::Program;

/// Writes random words over the first 16,384, of one of four kinds.
pub fn scatter(rng: &mut Rng, program: &Program, words: &mut [u32]) {
    let words = &mut words[..WORDS];
    match rng.below(6) {
        0 => words.fill_with(|| rng.draw() as u32),
        1 => words.fill_with(|| rng.below(8) as u32),
        2 | 3 => sparse(rng, words),
        _ => laid_out(rng, program, words),
    }
}

/// A small word mostly, else any.
fn small(rng: &mut Rng, bound: usize) -> u32 {
    if rng.one_in(20) {
        return rng.edge_word();
    }
    rng.below(bound) as u32
}

/// Zeros but for a tag, an int, and at times some words anywhere.
fn sparse(rng: &mut Rng, words: &mut [u32]) {
    words.fill(0);
    words[0] = rng.below(8) as u32;
    if rng.one_in(2) {
        words[1] = rng.edge_word();
    }
    if rng.one_in(2) {
        for _ in 0..rng.between(1, 3) {
            let at = if rng.one_in(2) { rng.below(6) } else { rng.below(WORDS) };
            words[at] = small(rng, 8);
        }
    }
}

/// A running head with activations and frames in their places, whose words are random.
fn laid_out(rng: &mut Rng, program: &Program, words: &mut [u32]) {
    words.fill(0);
    let depth = if rng.one_in(8) { rng.between(1, 16) } else { rng.between(1, 2) };
    let nodes = program.functions[0].nodes.len();
    words[0] = 2;
    words[2] = depth as u32;
    words[3] = small(rng, 6);
    words[4] = small(rng, 3 * nodes);
    let mut frame = FRAMES;
    for activation in words[ACTIVATIONS..FRAMES].chunks_exact_mut(ACTIVATION).take(depth) {
        let function = rng.below(program.functions.len());
        let vars = program.functions[function].vars.len();
        let frames = rng.below(4);
        activation[0] = function as u32;
        activation[1] = frames as u32;
        activation[2] = if rng.one_in(8) { small(rng, 66) } else { vars as u32 };
        for value in activation[ACTIVATION_HEAD..].chunks_exact_mut(2).take(vars) {
            value[0] = rng.below(3) as u32;
            value[1] = value[0] * rng.below(2) as u32;
        }
        frame += FRAME * frames;
    }
    words[ACTIVATIONS] *= u32::from(rng.one_in(4));
    for frame in words[FRAMES..frame].chunks_exact_mut(FRAME) {
        frame[0] = small(rng, 10);
        frame[1] = small(rng, 3 * nodes);
    }
}
