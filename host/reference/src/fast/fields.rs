//! Question 7 of a part, with the decls met on the way.

use super::{word, Functions, RECORD};

/// What the decls of a part say.
pub struct Decls {
    /// The variables with a decl.
    pub seen: u64,
    /// The variables with more than one.
    pub twice: u64,
    /// The variables declared bool.
    pub bools: u64,
    /// For each variable the first node under its decl and the decl.
    pub scopes: [(u32, u32); 64],
}

impl Decls {
    /// No decls yet.
    pub fn new() -> Decls {
        Decls { seen: 0, twice: 0, bools: 0, scopes: [(0, 0); 64] }
    }

    /// Forgets the last part's decls; their scopes stay, as only those of seen variables count.
    fn clear(&mut self) {
        (self.seen, self.twice, self.bools) = (0, 0, 0);
    }

    /// Notes a decl at a node of the part.
    fn add(&mut self, node: u32, a: u8, b: u32, size: u32) {
        let bit = 1u64 << b;
        self.twice |= self.seen & bit;
        self.seen |= bit;
        if a == 2 {
            self.bools |= bit;
        }
        self.scopes[b as usize] = ((node + 1).saturating_sub(size), node);
    }
}

/// Question 7 of a part: notes the decls, or gives the first node that fails.
pub fn judge(
    functions: Functions<'_>,
    function: usize,
    part: &[u8],
    decls: &mut Decls,
) -> Result<(), u32> {
    let p = u32::from(functions.params(function));
    let v = u32::from(functions.vars(function));
    decls.clear();
    for (node, r) in part.chunks_exact(RECORD).enumerate() {
        let (kind, a, b) = (r[2], r[3], word(r, 4));
        let right = match kind {
            0 => a == 0,
            1 => a == 0 && b <= 1,
            2 | 8 => a == 0 && b < v,
            3 => a <= 15 && b == 0,
            5 => b < functions.count() && a == functions.params(b as usize),
            9 => (a == 1 || a == 2) && p <= b && b < v,
            4 | 6 | 7 | 10..=15 => a == 0 && b == 0,
            _ => false,
        };
        if !right || r[0] != b'N' || r[1] != b'D' {
            return Err(node as u32);
        }
        if kind == 9 {
            decls.add(node as u32, a, b, word(r, 8));
        }
    }
    Ok(())
}
