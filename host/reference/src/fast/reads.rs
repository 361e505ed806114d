//! The slow way of question 13, taken only to find the place of a refusal.

use super::{word, RECORD};

/// A node's kind.
fn kind(part: &[u8], node: usize) -> u8 {
    part[node * RECORD + 2]
}

/// A node's b.
fn b(part: &[u8], node: usize) -> u32 {
    word(part, node * RECORD + 4)
}

/// The node that ends just before a node's subtree.
fn before(part: &[u8], node: usize) -> usize {
    node.saturating_sub(word(part, node * RECORD + 8) as usize)
}

/// For each statement the variables that it assigns on every way through; a return counts for all.
fn assigned(part: &[u8]) -> Vec<u64> {
    let count = part.len() / RECORD;
    let mut sets = vec![0u64; count];
    for node in 0..count {
        sets[node] = match kind(part, node) {
            7 => sets[node - 1] | sets[before(part, node - 1)],
            8 => 1 << b(part, node),
            9 => sets[node - 1] & !(1 << b(part, node)),
            10 => sets[node - 1] & sets[before(part, node - 1)],
            12 => u64::MAX,
            _ => 0,
        };
    }
    sets
}

/// The lowest node of a part that reads a variable without a value; the part's shape is right.
pub fn lowest(part: &[u8], params: u64) -> usize {
    let count = part.len() / RECORD;
    let sets = assigned(part);
    let mut found = vec![params; count];
    let mut lowest = 0;
    for node in (0..count).rev() {
        let set = found[node];
        match kind(part, node) {
            2 if (set >> b(part, node)) & 1 == 0 => lowest = node,
            7 => {
                let left = before(part, node - 1);
                found[left] = set;
                found[node - 1] = set | sets[left];
            }
            9 => found[node - 1] = set & !(1 << b(part, node)),
            _ => {
                let first = node + 1 - word(part, node * RECORD + 8) as usize;
                let mut end = node;
                while end > first {
                    found[end - 1] = set;
                    end -= word(part, (end - 1) * RECORD + 8) as usize;
                }
            }
        }
    }
    lowest
}
