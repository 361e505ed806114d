//! Question 7: each node's mark, kind, a and b.

use crate::record::{Function, Node, Program};
use crate::Refusal;

/// Question 7 of the whole file.
pub fn question_7(program: &Program) -> Result<(), Refusal> {
    for (_, function, part) in program.each_part() {
        for number in part {
            let node = &program.nodes[number];
            if node.mark != *b"ND" || !fields_right(program, function, node) {
                return Err((7, program.node_place(number), 0));
            }
        }
    }
    Ok(())
}

/// The kind with its a and b in a node of a function.
fn fields_right(program: &Program, function: &Function, node: &Node) -> bool {
    let (a, b) = (node.a, node.b);
    let (p, v) = (u32::from(function.params), u32::from(function.vars));
    match node.kind {
        0 => a == 0,
        1 => a == 0 && b <= 1,
        2 | 8 => a == 0 && b < v,
        3 => a <= 15 && b == 0,
        5 => match program.functions.get(b as usize) {
            Some(callee) => a == callee.params,
            None => false,
        },
        9 => (a == 1 || a == 2) && p <= b && b < v,
        4 | 6 | 7 | 10..=15 => a == 0 && b == 0,
        _ => false,
    }
}
