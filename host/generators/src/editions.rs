//! The edition of drawn files, and shift counts that suit edition 1.

use crate::record::File;
use crate::rng::Rng;
use crate::tree::{AND, SHL, SHR, XOR};

/// Shift counts that every edition takes as they are.
const WITHIN: [i32; 6] = [0, 1, 2, 16, 30, 31];

/// Shift counts that edition 1 raises arith for.
const OUTSIDE: [i32; 10] =
    [i32::MIN, i32::MIN + 1, -33, -32, -31, -1, 32, 33, i32::MAX - 1, i32::MAX];

/// Gives a drawn file one of the editions by numbers of its own, and a file of edition 1 other shift counts.
pub(crate) fn draw(rng: &Rng, file: &mut File) {
    let mut rng = rng.beside();
    file.header.edition = rng.below(2) as u8;
    if file.header.edition == 1 {
        count_anew(&mut rng, file);
    }
}

/// Draws constant shift counts near the ends of their range, most of them within it, and turns most other shifts into operators on bits:
/// a run that meets many counts outside the range would end at once.
fn count_anew(rng: &mut Rng, file: &mut File) {
    for at in 1..file.nodes.len() {
        let [count, node] = &mut file.nodes[at - 1..=at] else { continue };
        if node.kind != 3 || !matches!(node.a, SHL | SHR) {
            continue;
        }
        if count.kind == 0 {
            let from = if rng.one_in(5) { &OUTSIDE[..] } else { &WITHIN };
            count.b = *rng.pick(from).unwrap_or(&0) as u32;
        } else if !rng.one_in(3) {
            node.a = rng.between(AND.into(), XOR.into()) as u8;
        }
    }
}
