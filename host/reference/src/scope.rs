//! Questions 10 and 11: the decls and their scopes.

use crate::record::Program;
use crate::tree::Forest;
use crate::Refusal;

/// Question 10 of the whole file: each non-parameter has exactly one decl.
pub fn question_10(program: &Program) -> Result<(), Refusal> {
    for (number, function, part) in program.each_part() {
        let mut decls = vec![0u32; usize::from(function.vars)];
        for node in &program.nodes[part] {
            if node.kind == 9 {
                decls[node.b as usize] += 1;
            }
        }
        let mut own = usize::from(function.params)..decls.len();
        if let Some(variable) = own.find(|&x| decls[x] != 1) {
            return Err((10, program.function_place(number), variable as u32));
        }
    }
    Ok(())
}

/// Question 11 of the whole file: each non-parameter is used and assigned under its decl.
pub fn question_11(program: &Program, forest: &Forest) -> Result<(), Refusal> {
    // For each node the variables whose decl it stands under.
    let mut under = vec![0u64; program.nodes.len()];
    let mut lowest = None;
    // Parents stand after their children, so going down meets each parent first.
    for (_, function, part) in program.each_part() {
        for number in part.rev() {
            let node = &program.nodes[number];
            let mut inside = under[number];
            if node.kind == 9 {
                inside |= 1 << node.b;
            }
            for &child in &forest.children[number] {
                under[child] = inside;
            }
            let names = node.kind == 2 || node.kind == 8;
            if names && node.b >= u32::from(function.params) && (under[number] >> node.b) & 1 == 0 {
                lowest = Some(lowest.map_or(number, |low: usize| low.min(number)));
            }
        }
    }
    match lowest {
        Some(node) => Err((11, program.node_place(node), 0)),
        None => Ok(()),
    }
}
