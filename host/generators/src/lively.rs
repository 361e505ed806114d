//! Random accepted programs that run for long: loops that end, calls, recursion with an end.

use crate::editions;
use crate::lively_stmt::Body;
use crate::record::File;
use crate::rng::Rng;
use crate::tree::{self, Function, BOOL, INT, NOTHING};
use crate::valid;

/// What a call needs to know of a function.
pub(crate) struct Signature {
    pub result: u8,
    pub params: Vec<u8>,
    /// Whether it calls itself with its first parameter less one, down to 0.
    pub recursive: bool,
}

/// A random program that passes the check.
pub fn draw(rng: &mut Rng) -> File {
    let mut file = drawn(rng, true);
    editions::draw(rng, &mut file);
    file
}

/// A random program that passes the check of every release: its edition is 0 and no read needs an early return.
pub fn draw_plain(rng: &mut Rng) -> File {
    drawn(rng, false)
}

/// A random program of edition 0, with reads that need early returns or without.
fn drawn(rng: &mut Rng, early: bool) -> File {
    loop {
        let functions = if rng.one_in(5) { 1 } else { rng.between(2, 6) };
        let signatures: Vec<Signature> = (0..functions).map(|i| signature(rng, i == 0)).collect();
        let room = rng.between(10, 80);
        let bodies: Vec<Function> =
            (0..functions).map(|i| function(rng, &signatures, i, room, early)).collect();
        let mut file = tree::file(&bodies);
        if file.nodes.len() <= 4096 {
            (0..functions).for_each(|i| valid::shuffle_variables(rng, &mut file, i));
            return file;
        }
    }
}

/// A random signature; main's is fixed.
fn signature(rng: &mut Rng, main: bool) -> Signature {
    if main {
        return Signature { result: INT, params: Vec::new(), recursive: false };
    }
    let result = *rng.pick(&[NOTHING, INT, INT, INT, BOOL]).unwrap_or(&INT);
    let count = if rng.one_in(3) { rng.between(0, 8) } else { rng.between(0, 3) };
    let mut params: Vec<u8> = (0..count).map(|_| 1 + rng.below(2) as u8).collect();
    let recursive = !params.is_empty() && rng.one_in(2);
    if recursive {
        params[0] = INT;
    }
    Signature { result, params, recursive }
}

/// A function with a random body of about so many statements.
fn function(
    rng: &mut Rng,
    signatures: &[Signature],
    number: usize,
    room: usize,
    early: bool,
) -> Function {
    let own = &signatures[number];
    let mut body = Body::new(rng, signatures, number, room);
    body.early = early;
    let tree = if own.recursive { body.recursion() } else { body.ending(4) };
    let vars = body.variables() as u8;
    let bits = own.params.iter().enumerate();
    let mask = bits.fold(0, |mask, (i, &ty)| if ty == INT { mask } else { mask | 1 << i });
    tree::taking(own.result, own.params.len() as u8, mask, vars, tree)
}
