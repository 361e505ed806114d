//! Random files that pass the check, or all of it but what names and returns decide.

use crate::draw::Body;
use crate::editions;
use crate::plan::{Names, Plan};
use crate::record::File;
use crate::rng::Rng;
use crate::tree::{self, Function, INT};

/// What a call needs to know of a function.
pub struct Signature {
    pub result: u8,
    pub params: Vec<u8>,
}

/// A random file of any shape and size.
pub fn draw(rng: &mut Rng) -> File {
    let functions = match rng.below(10) {
        0..=2 => 1,
        3..=6 => rng.between(2, 4),
        7..=8 => rng.between(5, 16),
        _ => rng.between(17, 128),
    };
    let nodes = if rng.one_in(50) { 4096 } else { scaled(rng, 2 * functions) };
    draw_sized(rng, functions, nodes, Names::Valued)
}

/// A random small file that passes questions 1 to 10 and 12, and 11 too unless any name will do.
pub fn draw_loose(rng: &mut Rng, names: Names) -> File {
    let functions = rng.between(1, 3);
    let nodes = 2 * functions + rng.below(60);
    draw_sized(rng, functions, nodes, names)
}

/// A number of nodes from `least` to 4,096, small ones as likely as great ones.
fn scaled(rng: &mut Rng, least: usize) -> usize {
    let bits = rng.between(0, 12);
    let most = (1 << bits) * 2;
    least + rng.below(most.min(4097 - least))
}

/// A random file of exactly so many functions and nodes, at least two nodes for each function.
pub fn draw_sized(rng: &mut Rng, functions: usize, nodes: usize, names: Names) -> File {
    let signatures: Vec<Signature> = (0..functions).map(|i| signature(rng, i == 0)).collect();
    let plan = Plan::new(rng, signatures, names);
    let budgets = budgets(rng, functions, nodes);
    let bodies: Vec<Function> = budgets
        .iter()
        .zip(&plan.signatures)
        .map(|(&budget, own)| function(rng, &plan, own, budget))
        .collect();
    let mut file = tree::file(&bodies);
    for number in 0..functions {
        shuffle_variables(rng, &mut file, number);
    }
    editions::draw(rng, &mut file);
    file
}

/// A random signature; main's is fixed.
fn signature(rng: &mut Rng, main: bool) -> Signature {
    if main {
        return Signature { result: INT, params: Vec::new() };
    }
    let result = if rng.one_in(2) { INT } else { rng.below(3) as u8 };
    let count = if rng.one_in(3) { rng.between(0, 8) } else { rng.between(0, 2) };
    let params = (0..count).map(|_| 1 + rng.below(2) as u8).collect();
    Signature { result, params }
}

/// The nodes of each function, two or more, with the given sum.
fn budgets(rng: &mut Rng, functions: usize, nodes: usize) -> Vec<usize> {
    let mut budgets = vec![2; functions];
    let mut rest = nodes.saturating_sub(2 * functions);
    while rest > 0 {
        let share = if rng.one_in(4) { rest } else { rng.between(1, rest) };
        budgets[rng.below(functions)] += share;
        rest -= share;
    }
    budgets
}

/// A function with a random body of exactly so many nodes.
fn function(rng: &mut Rng, plan: &Plan, own: &Signature, budget: usize) -> Function {
    let returns = plan.names == Names::Valued || !rng.one_in(8);
    let mut body = Body::new(rng, plan, own);
    let tree = body.stmt(budget, returns);
    let vars = body.variables() as u8;
    let bits = own.params.iter().enumerate();
    let mask = bits.fold(0, |mask, (i, &ty)| if ty == INT { mask } else { mask | 1 << i });
    tree::taking(own.result, own.params.len() as u8, mask, vars, tree)
}

/// Renames a function's own variables at random.
pub(crate) fn shuffle_variables(rng: &mut Rng, file: &mut File, number: usize) {
    let record = &file.functions[number];
    let (params, vars) = (u32::from(record.params), u32::from(record.vars));
    let mut names: Vec<u32> = (0..vars).collect();
    for i in (params as usize..names.len()).rev() {
        let other = rng.between(params as usize, i);
        names.swap(i, other);
    }
    let first = file.first_node(number);
    let count = record.count as usize;
    for node in &mut file.nodes[first..first + count] {
        if matches!(node.kind, 2 | 8 | 9) {
            node.b = names[node.b as usize];
        }
    }
}
