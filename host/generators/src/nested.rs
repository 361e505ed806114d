//! Files nested as deep as a number of nodes allows, with one defect in the innermost, the first or the last place.

use crate::record::{File, NodeRecord};
use crate::tree::*;

/// The decls around every tree: a decl is the statement that nests with the fewest nodes.
const DECLS: usize = 64;

/// A way to nest: its name, the nodes of a level and the level.
type Level<T> = (&'static str, usize, fn(T) -> T);

/// The statements that nest in each other.
const STATEMENTS: [Level<Stmt>; 5] = [
    ("seq nested left", 2, |s| seq(s, nop())),
    ("seq nested right", 2, |s| seq(nop(), s)),
    ("ifs nested in the first branch", 3, |s| if_else(boolean(true), s, nop())),
    ("ifs nested in the second branch", 3, |s| if_else(boolean(true), nop(), s)),
    ("whiles nested", 2, |s| while_do(boolean(true), s)),
];

/// The expressions of type int that nest in each other.
const EXPRESSIONS: [Level<Expr>; 3] = [
    ("arithmetic nested left", 2, |e| op(ADD, e, int(2))),
    ("arithmetic nested right", 2, |e| op(SUB, int(2), e)),
    ("calls nested", 1, |e| call(1, vec![e])),
];

/// The innermost statement by the question that refuses it.
const INNER_STATEMENTS: [(u8, fn() -> Stmt); 6] = [
    (9, || expr_as_stmt(int(0))),
    (10, || decl(0, INT, nop())),
    (11, || seq(decl(63, INT, nop()), ret(var(63)))),
    (12, || ret(boolean(true))),
    (13, || ret(var(0))),
    (14, || discard(int(0))),
];

/// The innermost expression by the question that refuses it.
const INNER_EXPRESSIONS: [(u8, fn() -> Expr); 4] =
    [(9, || stmt_as_expr(nop())), (11, || var(63)), (12, || boolean(true)), (13, || var(0))];

/// A change of a node by the question that refuses it.
const CHANGES: [(u8, fn(&mut NodeRecord)); 2] =
    [(7, |node| node.a = 3), (8, |node| node.size += 1)];

/// A refused file: its name, the question that refuses it and its records.
pub type Refused = (String, u8, File);

/// Puts decls of the first variables around a statement.
fn declared(count: usize, body: Stmt) -> Stmt {
    (0..count as u32).fold(body, |s, x| decl(x, INT, s))
}

/// The file of a main with all variables, and of the function that is called.
fn with_callee(body: Stmt) -> File {
    file(&[function(INT, DECLS as u8, body), taking(INT, 1, 0, 1, ret(var(0)))])
}

/// The file of a tree of as many levels as nodes allow, which the inner one and no level need.
fn deepest<T>(nodes: usize, level: Level<T>, make: impl Fn(&dyn Fn(T) -> T) -> File) -> File {
    let alone = make(&|inner| inner).nodes.len();
    let levels = (nodes - alone) / level.1;
    make(&|inner| (0..levels).fold(inner, |inner, _| level.2(inner)))
}

/// The decls that stand around a tree: all of them, but for question 11 the last one, which stands beside the read.
fn around(question: u8) -> usize {
    DECLS - usize::from(question == 11)
}

/// Nested statements around a statement, with at most so many nodes.
fn statements(nodes: usize, level: Level<Stmt>, question: u8, inner: fn() -> Stmt) -> File {
    deepest(nodes, level, |nest| main(DECLS as u8, declared(around(question), nest(inner()))))
}

/// A return of nested expressions around an expression, with at most so many nodes.
fn expressions(nodes: usize, level: Level<Expr>, question: u8, inner: fn() -> Expr) -> File {
    deepest(nodes, level, |nest| {
        let body = ret(nest(inner()));
        let body = if question == 11 { seq(decl(63, INT, nop()), body) } else { body };
        with_callee(declared(around(question), body))
    })
}

/// Every way to nest with every defect, each with at most so many nodes.
pub fn refused(nodes: usize) -> Vec<Refused> {
    let mut all = Vec::new();
    for level in STATEMENTS {
        let named = |question: u8| format!("{}, refused by {question}", level.0);
        for (question, inner) in INNER_STATEMENTS {
            all.push((named(question), question, statements(nodes, level, question, inner)));
        }
        for (question, change) in CHANGES {
            let file = statements(nodes, level, question, || ret(int(0)));
            let last = file.functions[0].count as usize - 1;
            for (place, node) in [("first", 0), ("last", last)] {
                let name = format!("{}, {place} node", named(question));
                all.push((name, question, file.clone().with(|f| change(&mut f.nodes[node]))));
            }
        }
    }
    for level in EXPRESSIONS {
        for (question, inner) in INNER_EXPRESSIONS {
            let name = format!("{}, refused by {question}", level.0);
            all.push((name, question, expressions(nodes, level, question, inner)));
        }
    }
    all
}
