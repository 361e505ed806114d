//! Question 9: sorts.

use super::base::{before_return, two};
use crate::case::Group;
use generators::tree::*;

/// A statement where an expression belongs.
fn hole() -> Expr {
    stmt_as_expr(nop())
}

/// An expression where a statement belongs.
fn value() -> Stmt {
    expr_as_stmt(int(5))
}

/// Question 9 of every position.
pub fn question_9() -> Group {
    let mut g = Group::new("question 9");
    expressions(&mut g);
    statements(&mut g);
    bodies(&mut g);
    let both = before_return(1, discard(hole()));
    g.refused("and question 10", both, 9, 2);
    let lower = seq(assert_that(hole()), seq(value(), ret(hole())));
    g.refused("the lowest of three", main(0, lower), 9, 2);
    let later = seq(seq(value(), nop()), seq(assert_that(hole()), ret(int(0))));
    g.refused("the lowest of two, under the lower parent", main(0, later), 9, 2);
    let nested = seq(value(), seq(nop(), seq(assert_that(hole()), ret(int(0)))));
    g.refused("the lowest of two, under the higher parent", main(0, nested), 9, 2);
    g
}

/// Statements in expressions' positions.
fn expressions(g: &mut Group) {
    let first = before_return(0, discard(op(ADD, hole(), int(1))));
    g.refused("left of +", first, 9, 2);
    g.refused("right of +", before_return(0, discard(op(ADD, int(1), hole()))), 9, 3);
    g.refused("left of &&", before_return(0, assert_that(and(hole(), boolean(true)))), 9, 2);
    g.refused("right of &&", before_return(0, assert_that(and(boolean(true), hole()))), 9, 3);
    for (at, place) in [(0, 3), (1, 4), (2, 5)] {
        let arguments = (0..3).map(|i| if i == at { hole() } else { int(i) }).collect();
        let callee = taking(INT, 3, 0, 3, ret(int(0)));
        g.refused(format!("argument {at}"), two(ret(call(1, arguments)), callee), 9, place);
    }
    let store = decl(0, INT, seq(assign(0, hole()), ret(int(0))));
    g.refused("under assign", main(1, store), 9, 2);
    g.refused("under return", main(0, ret(hole())), 9, 2);
    g.refused("under assert", before_return(0, assert_that(hole())), 9, 2);
    g.refused("under kind 14", before_return(0, discard(hole())), 9, 2);
    g.refused("condition of if", before_return(0, if_else(hole(), nop(), nop())), 9, 2);
    g.refused("condition of while", before_return(0, while_do(hole(), nop())), 9, 2);
    let returned = stmt_as_expr(ret(int(1)));
    g.refused("return under return", main(0, ret(returned)), 9, 3);
    g.refused("seq under return", main(0, ret(stmt_as_expr(seq(nop(), nop())))), 9, 4);
}

/// Expressions in statements' positions.
fn statements(g: &mut Group) {
    g.refused("left of seq", before_return(0, value()), 9, 2);
    g.refused("right of seq", main(0, seq(ret(int(0)), value())), 9, 4);
    g.refused("under decl", main(1, decl(0, INT, value())), 9, 2);
    let test = || boolean(true);
    g.refused("first branch", before_return(0, if_else(test(), value(), nop())), 9, 3);
    g.refused("second branch", before_return(0, if_else(test(), nop(), value())), 9, 4);
    g.refused("body of while", before_return(0, while_do(test(), value())), 9, 3);
    let kinds = [int(1), boolean(true), op(ADD, int(1), int(2)), and(test(), test()), nothing()];
    for (expr, place) in kinds.into_iter().zip([2, 2, 4, 4, 2]) {
        g.refused(
            format!("an expression at place {place}"),
            before_return(0, expr_as_stmt(expr)),
            9,
            place,
        );
    }
    let called = seq(expr_as_stmt(call(0, vec![])), ret(int(0)));
    g.refused("a call", main(0, called), 9, 2);
    let read = decl(0, INT, seq(expr_as_stmt(var(0)), ret(int(0))));
    g.refused("a variable", main(1, read), 9, 2);
}

/// Bodies that are expressions, in the first, the middle and the last function.
fn bodies(g: &mut Group) {
    for (at, place) in [(0, 4), (1, 6), (2, 8)] {
        let functions: Vec<Function> =
            (0..3).map(|i| function(INT, 0, if i == at { value() } else { ret(int(0)) })).collect();
        g.refused(format!("body of f{at}"), file(&functions), 9, place);
    }
}
