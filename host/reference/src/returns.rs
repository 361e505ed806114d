//! Question 14: each body returns.

use crate::record::Program;
use crate::tree::Forest;
use crate::Refusal;

/// Question 14 of the whole file.
pub fn question_14(program: &Program, forest: &Forest) -> Result<(), Refusal> {
    let mut returns: Vec<bool> = Vec::with_capacity(program.nodes.len());
    for (node, children) in program.nodes.iter().zip(&forest.children) {
        let does = match (node.kind, children.as_slice()) {
            (12, _) => true,
            (7, &[left, right]) => returns[left] || returns[right],
            (9, &[statement]) => returns[statement],
            (10, &[_, first, second]) => returns[first] && returns[second],
            _ => false,
        };
        returns.push(does);
    }
    for (number, _, part) in program.each_part() {
        if !returns[part.end - 1] {
            return Err((14, program.function_place(number), 0));
        }
    }
    Ok(())
}
