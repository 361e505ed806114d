//! What is fixed for a whole random file.

use crate::rng::Rng;
use crate::tree::{BOOL, INT, NOTHING};
use crate::valid::Signature;

/// No size will do.
const NEVER: usize = usize::MAX / 4;

/// Which variables a drawn body may name.
#[derive(Clone, Copy, PartialEq)]
pub enum Names {
    /// Reads only of variables with a value, so that the file is accepted.
    Valued,
    /// Reads also of variables assigned on some way before, so that ifs and whiles decide 13.
    Touched,
    /// Reads also of variables without a value among early returns, so that returns, decls and whiles decide 13.
    Early,
    /// Reads of all variables in scope, so that questions 13 and 14 decide.
    Scoped,
    /// All variables so far, so that questions 11, 13 and 14 decide.
    Any,
}

/// How sizes are shared out among children.
#[derive(Clone, Copy)]
pub enum Share {
    First,
    Last,
    Even,
    Any,
}

/// What is fixed for a whole file: its signatures and its style.
pub struct Plan {
    pub signatures: Vec<Signature>,
    pub names: Names,
    /// The functions of each result type.
    pub callees: [Vec<usize>; 3],
    /// The least size from 2 up of a call of each type, for even and odd sizes.
    pub least: [[usize; 2]; 3],
    pub share: Share,
    /// How often each of the eight ways to make a statement is tried.
    pub weights: [usize; 8],
    /// One in how many expressions is a call where it can be.
    pub call_rate: usize,
    /// Greater statements than this are mostly made of other statements.
    pub small: usize,
}

impl Plan {
    /// A random style over these signatures.
    pub fn new(rng: &mut Rng, signatures: Vec<Signature>, names: Names) -> Plan {
        let of = |ty| (0..signatures.len()).filter(|&i| signatures[i].result == ty).collect();
        let callees = [of(NOTHING), of(INT), of(BOOL)];
        let least = least_calls(&signatures);
        let mut share = match rng.below(5) {
            0 => Share::First,
            1 => Share::Last,
            2 => Share::Even,
            _ => Share::Any,
        };
        let mut weights = std::array::from_fn(|_| [1, 2, 4, 9][rng.below(4)]);
        let (call_rate, mut small) = (rng.between(1, 8), [4, 8, 24, 4096][rng.below(4)]);
        match names {
            Names::Touched => (weights, share, small) = ([9, 3, 6, 1, 9, 1, 9, 6], Share::Any, 6),
            Names::Early => (weights, share, small) = ([6, 3, 6, 6, 9, 2, 9, 6], Share::Any, 6),
            _ => {}
        }
        Plan { signatures, names, callees, least, share, weights, call_rate, small }
    }

    /// Whether an expression of a type can have exactly so many nodes.
    pub fn feasible(&self, size: usize, ty: u8) -> bool {
        let plain = size == 1 || (ty != NOTHING && size % 2 == 1);
        plain || (size > 1 && size >= self.least[usize::from(ty)][size % 2])
    }
}

/// The least sizes from 2 up that calls of each type can have, even and odd.
fn least_calls(signatures: &[Signature]) -> [[usize; 2]; 3] {
    let mut least = [[NEVER; 2]; 3];
    for _ in 0..3 {
        for f in signatures.iter().filter(|f| !f.params.is_empty()) {
            let odd_parts = 1 + f.params.len();
            let even = f.params.iter().map(|&ty| least[usize::from(ty)][0]).min();
            let one_even = f.params.len() + even.unwrap_or(NEVER);
            for size in [odd_parts, one_even.min(NEVER)] {
                let slot = &mut least[usize::from(f.result)][size % 2];
                *slot = size.min(*slot);
            }
        }
    }
    least
}
