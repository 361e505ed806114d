//! Files of close to a given number of nodes that each question refuses as late as it can, and one that shows itself early.

use crate::record::{File, NodeRecord};
use crate::shapes;
use crate::tree::*;

/// A shape with a question's number in its name, and its bytes for so many nodes.
pub type Late = (&'static str, fn(usize) -> Vec<u8>);

/// One file for each question, in order, one more for early returns and one whose fault is seen at the first nodes.
pub const ALL: [Late; 16] = [
    ("refused by 1", |nodes| shapes::functions(nodes).bytes()[1..].to_vec()),
    ("refused by 2", |nodes| shapes::functions(nodes).with(|f| f.header.zeros[2] = 1).bytes()),
    ("refused by 3", |nodes| shapes::functions(nodes).with(add_nop).bytes()),
    ("refused by 4", |nodes| spoil_last(nodes, |f| f.zeros[1] = 1)),
    ("refused by 5", |nodes| spoil_last(nodes, |f| f.count += 1)),
    ("refused by 6", |nodes| shapes::functions(nodes).with(|f| f.functions[0].result = 2).bytes()),
    ("refused by 7", |nodes| last_node(shapes::decls(nodes), |node| node.a = 3)),
    ("refused by 8", |nodes| last_node(shapes::decls(nodes), |node| node.size += 1)),
    ("refused by 9", |nodes| main(0, expr_as_stmt(sum(nodes))).bytes()),
    ("refused by 10", |nodes| spoil_last(nodes, |f| f.vars = 1)),
    ("refused by 11", out_of_scope),
    ("refused by 12", |nodes| main(0, ret(op(LT, sum(nodes - 4), int(1)))).bytes()),
    ("refused by 13", empty_read),
    ("refused by 14", |nodes| without_return(shapes::seq_right(nodes))),
    ("refused by 13, a guard in a loop", guard_in_loop),
    ("refused by 13, the first decl", first_decl),
];

/// Puts one node more at the end.
fn add_nop(file: &mut File) {
    file.nodes.push(NodeRecord::new(6, 0, 0, 1));
}

/// Many functions of which the last record is changed.
fn spoil_last(nodes: usize, change: fn(&mut crate::record::FunctionRecord)) -> Vec<u8> {
    shapes::functions(nodes).with(|f| f.functions.last_mut().into_iter().for_each(change)).bytes()
}

/// A file with its last node changed.
fn last_node(file: File, change: fn(&mut NodeRecord)) -> Vec<u8> {
    file.with(|f| f.nodes.last_mut().into_iter().for_each(change)).bytes()
}

/// A sum of about so many nodes, nested to the left.
fn sum(nodes: usize) -> Expr {
    (0..(nodes - 1) / 2).fold(int(1), |e, _| op(ADD, e, int(2)))
}

/// A closed decl, then nops, then a read outside it.
fn out_of_scope(nodes: usize) -> Vec<u8> {
    let nops = (0..(nodes - 5) / 2).fold(ret(var(0)), |s, _| seq(nop(), s));
    main(1, seq(decl(0, INT, nop()), nops)).bytes()
}

/// A seq nested to the right whose last statement alone reads a variable without a value.
fn empty_read(nodes: usize) -> Vec<u8> {
    let body = (0..(nodes - 10) / 3).fold(ret(var(1)), |s, _| seq(discard(var(0)), s));
    let all = seq(assign(0, int(1)), body);
    main(2, decl(0, INT, decl(1, INT, all))).bytes()
}

/// Guards with early returns, of which the last stands in a loop, and a read of what it alone sets.
fn guard_in_loop(nodes: usize) -> Vec<u8> {
    let guard = |x| if_else(op(LT, var(0), int(1)), ret(int(2)), assign(x, int(3)));
    let last = seq(while_do(boolean(true), guard(2)), ret(var(2)));
    let body = (0..(nodes - 22) / 12).fold(last, |s, _| seq(guard(1), seq(discard(var(1)), s)));
    let all = seq(assign(0, int(1)), body);
    main(3, decl(0, INT, decl(1, INT, decl(2, INT, all)))).bytes()
}

/// A decl whose variable is read without a value, and a long seq after it.
fn first_decl(nodes: usize) -> Vec<u8> {
    let nops = (0..(nodes - 6) / 2).fold(ret(int(1)), |s, _| seq(nop(), s));
    main(1, seq(decl(0, INT, discard(var(0))), nops)).bytes()
}

/// A file with its first return turned into an expression as statement.
fn without_return(file: File) -> Vec<u8> {
    let spoil = |f: &mut File| {
        if let Some(node) = f.nodes.iter_mut().find(|node| node.kind == 12) {
            node.kind = 14;
        }
    };
    file.with(spoil).bytes()
}
