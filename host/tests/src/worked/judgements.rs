//! Worked files on questions 10 to 14.

use super::base::{before_return, procedure, two};
use crate::case::Group;
use generators::tree::*;

/// All these examples.
pub fn group() -> Group {
    let mut g = Group::new("declarations, types and flow");
    decls(&mut g);
    scopes(&mut g);
    types(&mut g);
    reads(&mut g);
    loops(&mut g);
    returns(&mut g);
    g
}

/// Question 10.
fn decls(g: &mut Group) {
    let three = (0..3).fold(ret(int(0)), |s, _| decl(0, INT, s));
    g.undeclared("three decls of x0", main(1, three), 1, 0);
    let all = |count: u32| (0..count).fold(ret(int(0)), |s, x| decl(x, INT, s));
    g.undeclared("v 64, x0 to x62", main(64, all(63)), 1, 63);
    g.accepted("v 64, x0 to x63", main(64, all(64)));
    let none = function(INT, 2, ret(int(0)));
    let both = file(&[function(INT, 1, ret(int(0))), none.clone()]);
    g.undeclared("main and f1", both, 1, 0);
    g.undeclared("f1 alone", file(&[function(INT, 0, ret(int(0))), none]), 2, 0);
    let unreached = seq(ret(int(0)), decl(0, INT, nop()));
    g.accepted("a decl after return", main(1, unreached));
}

/// Question 11.
fn scopes(g: &mut Group) {
    let turn = while_do(op(EQ, var(0), int(0)), decl(0, INT, nop()));
    g.refused("the condition is not under the body's decl", before_return(1, turn), 11, 2);
    let outside = seq(assign(0, int(2)), ret(var(0)));
    let body = seq(decl(0, INT, assign(0, int(1))), outside);
    g.refused("the assign comes first", main(1, body), 11, 6);
}

/// Question 12.
fn types(g: &mut Group) {
    let equal = op(EQ, boolean(true), boolean(true));
    g.refused("==(true,true)", before_return(0, assert_that(equal)), 12, 4);
    g.accepted("return ^(1,2)", main(0, ret(op(9, int(1), int(2)))));
    g.refused("return <(1,2)", main(0, ret(op(LT, int(1), int(2)))), 12, 5);
    g.refused("assert ^(1,2)", before_return(0, assert_that(op(9, int(1), int(2)))), 12, 5);
    g.accepted("assert <(1,2)", before_return(0, assert_that(op(LT, int(1), int(2)))));
    let after = |e: Expr| two(seq(discard(e), ret(int(0))), procedure());
    g.accepted("expr(nothing)", after(nothing()));
    g.accepted("expr(true)", after(boolean(true)));
    g.accepted("expr(f1())", after(call(1, vec![])));
    g.refused("return(nothing) in main", main(0, ret(nothing())), 12, 3);
    g.refused("return(f1()) in main", two(ret(call(1, vec![])), procedure()), 12, 4);
    let own = function(NOTHING, 0, ret(call(1, vec![])));
    g.accepted("return(f1()) in f1", two(ret(int(0)), own));
    let store = decl(0, INT, seq(assign(0, nothing()), ret(int(0))));
    g.refused("assign(x0,nothing)", main(1, store), 12, 3);
    let pass = ret(call(1, vec![nothing()]));
    g.refused("f1(nothing)", two(pass, taking(INT, 1, 0, 1, ret(var(0)))), 12, 4);
    g.refused("while(1,nop)", before_return(0, while_do(int(1), nop())), 12, 4);
    g.refused("if(1,..)", main(0, if_else(int(1), ret(int(0)), ret(int(1)))), 12, 7);
}

/// Question 13.
fn reads(g: &mut Group) {
    let behind = and(boolean(false), op(EQ, var(0), int(1)));
    let body = decl(0, INT, if_else(behind, ret(int(0)), ret(int(1))));
    g.refused("a read behind &&", main(1, body), 13, 3);
    let own = decl(0, INT, seq(assign(0, var(0)), ret(int(0))));
    g.refused("assign(x0,x0)", main(1, own), 13, 2);
    let after = decl(0, INT, seq(ret(int(1)), ret(var(0))));
    g.accepted("a read after return", main(1, after));
    let under = seq(ret(int(1)), decl(0, INT, ret(var(0))));
    g.refused("a decl after return", main(1, under), 13, 4);
}

/// Loops in question 13.
fn loops(g: &mut Group) {
    let set = while_do(boolean(true), assign(0, int(1)));
    g.refused("a loop's assign", main(1, decl(0, INT, seq(set, ret(var(0))))), 13, 6);
    let test = while_do(op(LT, var(0), int(1)), assign(0, int(1)));
    g.refused("the condition", main(1, decl(0, INT, seq(test, ret(int(0))))), 13, 2);
    let turn = while_do(boolean(true), seq(discard(var(0)), assign(0, int(1))));
    g.refused("the next turn", main(1, decl(0, INT, seq(turn, ret(int(0))))), 13, 3);
    let first = while_do(boolean(true), seq(assign(0, int(1)), discard(var(0))));
    g.accepted("in one turn", main(1, decl(0, INT, seq(first, ret(int(0))))));
}

/// Question 14 and functions that nobody calls.
fn returns(g: &mut Group) {
    let forever = || while_do(boolean(true), ret(int(2)));
    g.refused("while(true,return(1))", main(0, forever()), 14, 1);
    let idle = while_do(boolean(true), nop());
    g.accepted("seq(return(1),while(true,nop))", main(0, seq(ret(int(1)), idle)));
    let half = if_else(boolean(true), ret(int(1)), forever());
    g.refused("if(true,return(1),while(..))", main(0, half), 14, 1);
    g.refused("nothing, falls off", two(ret(int(0)), function(NOTHING, 0, nop())), 14, 2);
    let idle = function(INT, 0, ret(boolean(true)));
    g.refused("a function that nobody calls", two(ret(int(0)), idle), 12, 6);
}
