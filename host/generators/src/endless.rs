//! Programs that run without end, each with its own mix of rules.

use crate::record::File;
use crate::tree::*;

/// A named program.
pub type Program = (&'static str, fn() -> File);

/// The programs that are timed, by their names.
pub const ALL: [Program; 12] = [
    ("counting", counting),
    ("arithmetic", arithmetic),
    ("conditions", conditions),
    ("decls in a loop", decls),
    CALLS[0],
    CALLS[1],
    CALLS[2],
    CALLS[4],
    CALLS[8],
    ("recursion", recursion),
    ("shifts, edition 0", || shifts(0)),
    ("shifts, edition 1", || shifts(1)),
];

/// The calls by the number of their arguments.
pub const CALLS: [Program; 9] = [
    ("calls without arguments", || calls(0)),
    ("calls of one argument", || calls(1)),
    ("calls of two arguments", || calls(2)),
    ("calls of three arguments", || calls(3)),
    ("calls of four arguments", || calls(4)),
    ("calls of five arguments", || calls(5)),
    ("calls of six arguments", || calls(6)),
    ("calls of seven arguments", || calls(7)),
    ("calls of eight arguments", || calls(8)),
];

/// A main that sets x0 to 0 and repeats a statement.
fn repeated(turn: Stmt, others: &[Function]) -> File {
    let body = seq(while_do(boolean(true), turn), ret(var(0)));
    let main = function(INT, 1, decl(0, INT, seq(assign(0, int(0)), body)));
    file(&[&[main], others].concat())
}

/// One assign.
pub fn counting() -> File {
    repeated(assign(0, op(ADD, var(0), int(1))), &[])
}

/// A longer expression.
fn arithmetic() -> File {
    let product = op(MUL, op(ADD, var(0), int(7)), op(SUB, var(0), int(3)));
    let rest = op(REM, op(SHR, product, int(2)), int(1009));
    repeated(assign(0, op(ADD, rest, op(DIV, var(0), int(3)))), &[])
}

/// &&, if and assert.
fn conditions() -> File {
    let test = and(op(LT, var(0), int(10)), op(LT, int(-10), var(0)));
    let branch = if_else(test, assign(0, op(ADD, var(0), int(1))), assign(0, int(-5)));
    repeated(seq(branch, assert_that(op(LT, var(0), int(20)))), &[])
}

/// A decl that runs in every turn.
fn decls() -> File {
    let inner = seq(assign(1, op(ADD, var(0), int(1))), assign(0, var(1)));
    let body = seq(while_do(boolean(true), decl(1, INT, inner)), ret(var(0)));
    file(&[function(INT, 2, decl(0, INT, seq(assign(0, int(0)), body)))])
}

/// One call in every turn.
fn calls(count: u8) -> File {
    let arguments = (0..count).map(|_| var(0)).collect();
    let callee = taking(INT, count, 0, count, ret(int(1)));
    repeated(assign(0, call(1, arguments)), &[callee])
}

/// The twelfth Fibonacci number in every turn.
fn recursion() -> File {
    let less = |n| call(1, vec![op(SUB, var(0), int(n))]);
    let sum = ret(op(ADD, less(1), less(2)));
    let body = if_else(op(LT, var(0), int(2)), ret(var(0)), sum);
    repeated(assign(0, call(1, vec![int(12)])), &[taking(INT, 1, 0, 1, body)])
}

/// Shifts by constants and by a variable, with counts that both editions take.
fn shifts(edition: u8) -> File {
    let bit = op(SHR, op(SHL, int(1), op(AND, var(0), int(31))), int(3));
    let rest = op(SHR, op(SHL, var(0), int(5)), int(2));
    let turn = assign(0, op(ADD, op(XOR, bit, rest), int(1)));
    repeated(turn, &[]).with(|f| f.header.edition = edition)
}
