//! Question 8: the sizes, and the trees that they describe.

use crate::record::{Node, Program};
use crate::Refusal;

/// The children of every node, left to right, as node numbers.
pub struct Forest {
    pub children: Vec<Vec<usize>>,
}

/// The number of children that a node of question 7's form has.
fn arity(node: &Node) -> usize {
    match node.kind {
        3 | 4 | 7 | 11 => 2,
        8 | 9 | 12..=14 => 1,
        10 => 3,
        5 => usize::from(node.a),
        _ => 0,
    }
}

/// Question 8 of the whole file; gives the trees.
pub fn question_8(program: &Program) -> Result<Forest, Refusal> {
    let mut children = Vec::with_capacity(program.nodes.len());
    for (_, _, part) in program.each_part() {
        let last = part.end - 1;
        // The roots of the finished trees of this part, left to right.
        let mut roots: Vec<usize> = Vec::new();
        for number in part.clone() {
            let refusal = (8, program.node_place(number), 0);
            let node = &program.nodes[number];
            let first = roots.len().checked_sub(arity(node)).ok_or(refusal)?;
            let own = roots.split_off(first);
            let below: usize = own.iter().map(|&child| program.nodes[child].size as usize).sum();
            if node.size as usize != 1 + below {
                return Err(refusal);
            }
            if number == last && node.size as usize != part.len() {
                return Err(refusal);
            }
            roots.push(number);
            children.push(own);
        }
    }
    Ok(Forest { children })
}
