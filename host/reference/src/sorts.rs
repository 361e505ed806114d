//! Question 9: expressions and statements in their positions.

use crate::record::Program;
use crate::tree::Forest;
use crate::Refusal;

/// The two sorts of node.
#[derive(Clone, Copy, PartialEq)]
enum Sort {
    Expression,
    Statement,
}

/// The sort that a node is of.
fn sort_of(kind: u8) -> Sort {
    match kind {
        0..=5 | 15 => Sort::Expression,
        _ => Sort::Statement,
    }
}

/// The sort that a parent wants of its child at a position counted from 0.
fn wanted(parent: u8, position: usize) -> Sort {
    match parent {
        3 | 4 | 5 | 8 | 12 | 13 | 14 => Sort::Expression,
        10 | 11 if position == 0 => Sort::Expression,
        _ => Sort::Statement,
    }
}

/// Question 9 of the whole file: the lowest node whose sort is not the one wanted.
pub fn question_9(program: &Program, forest: &Forest) -> Result<(), Refusal> {
    // A node that is no child is a body, so a statement is wanted.
    let mut wants = vec![Sort::Statement; program.nodes.len()];
    for (node, children) in program.nodes.iter().zip(&forest.children) {
        for (position, &child) in children.iter().enumerate() {
            wants[child] = wanted(node.kind, position);
        }
    }
    let wrong = (0..program.nodes.len()).find(|&n| sort_of(program.nodes[n].kind) != wants[n]);
    match wrong {
        Some(node) => Err((9, program.node_place(node), 0)),
        None => Ok(()),
    }
}
