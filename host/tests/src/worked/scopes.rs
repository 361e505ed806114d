//! Questions 10 and 11: decls and scopes.

use super::base::{before_return, two};
use crate::case::Group;
use generators::tree::*;
use generators::File;

/// Three functions of which one has a variable too many.
fn lacking(at: usize) -> File {
    let own = |i: usize| function(INT, u8::from(i == at), ret(int(0)));
    file(&[own(0), own(1), own(2)])
}

/// main that declares these variables, outermost first, with v variables.
fn declaring(vars: u8, order: &[u32]) -> File {
    main(vars, order.iter().rev().fold(ret(int(0)), |s, &x| decl(x, INT, s)))
}

/// Question 10: functions, counts and items.
pub fn question_10() -> Group {
    let mut g = Group::new("question 10");
    for at in 0..3 {
        g.undeclared(format!("no decl in f{at}"), lacking(at), 1 + at as u32, 0);
    }
    g.accepted("v 3, in any order", declaring(3, &[1, 2, 0]));
    g.undeclared("v 3, without x0", declaring(3, &[1, 2]), 1, 0);
    g.undeclared("v 3, without x1", declaring(3, &[2, 0]), 1, 1);
    g.undeclared("v 3, without x2", declaring(3, &[1, 0]), 1, 2);
    g.undeclared("v 3, x1 twice", declaring(3, &[1, 2, 0, 1]), 1, 1);
    g.undeclared("v 3, x2 twice, without x1", declaring(3, &[2, 2, 0]), 1, 1);
    g.undeclared("v 3, x1 twice, without x2", declaring(3, &[1, 0, 1]), 1, 1);
    g.undeclared("v 3, x2 three times", declaring(3, &[2, 0, 2, 1, 2]), 1, 2);
    g.undeclared("v 3, x2 four times", declaring(3, &[2, 0, 2, 1, 2, 2]), 1, 2);
    for missing in [0, 31, 32, 62, 63] {
        let order: Vec<u32> = (0..64).filter(|&x| x != missing).collect();
        g.undeclared(format!("v 64, without x{missing}"), declaring(64, &order), 1, missing);
        let order: Vec<u32> = (0..64).chain([missing]).collect();
        g.undeclared(format!("v 64, x{missing} twice"), declaring(64, &order), 1, missing);
    }
    let own = |order: &[u32]| {
        let body = order.iter().fold(ret(int(0)), |s, &x| decl(x, BOOL, s));
        two(ret(int(0)), taking(INT, 8, 0, 10, body))
    };
    g.accepted("p 8, v 10", own(&[8, 9]));
    g.undeclared("p 8, v 10, without x8", own(&[9]), 2, 8);
    g.undeclared("p 8, v 10, without x9", own(&[8]), 2, 9);
    g.undeclared("p 8, v 10, without both", own(&[]), 2, 8);
    let side = seq(decl(0, INT, nop()), decl(0, INT, nop()));
    g.undeclared("twice side by side", before_return(1, side), 1, 0);
    let again = if_else(boolean(true), decl(0, INT, nop()), decl(0, BOOL, nop()));
    g.undeclared("once in each branch", before_return(1, again), 1, 0);
    g.undeclared("and question 11", main(1, ret(var(0))), 1, 0);
    let later = file(&[function(INT, 0, ret(int(0))), function(INT, 4, decl(0, INT, ret(int(0))))]);
    g.undeclared("the lowest variable of the first function", later, 2, 1);
    g
}

/// A decl of x0 that is over at once.
fn closed() -> Stmt {
    decl(0, INT, nop())
}

/// Question 11: names outside their decls.
pub fn question_11() -> Group {
    let mut g = Group::new("question 11");
    beside(&mut g);
    branches(&mut g);
    functions(&mut g);
    let ill = seq(discard(var(0)), seq(closed(), ret(boolean(true))));
    g.refused("and question 12", main(1, ill), 11, 2);
    let reads = seq(discard(op(ADD, var(0), var(0))), seq(closed(), ret(var(0))));
    g.refused("the lowest of three", main(1, reads), 11, 2);
    g
}

/// Names before and after the decl.
fn beside(g: &mut Group) {
    let end = || ret(int(0));
    g.refused("a read before", main(1, seq(discard(var(0)), seq(closed(), end()))), 11, 2);
    g.refused("an assign before", main(1, seq(assign(0, int(1)), seq(closed(), end()))), 11, 3);
    g.refused("a read after", main(1, seq(closed(), ret(var(0)))), 11, 4);
    g.refused("an assign after", main(1, seq(closed(), seq(assign(0, int(1)), end()))), 11, 5);
    let other = decl(1, INT, seq(assign(0, int(1)), closed()));
    g.refused("under another decl", before_return(2, other), 11, 3);
    let inner = decl(1, INT, decl(0, INT, seq(assign(1, int(1)), assign(0, var(1)))));
    g.accepted("under both decls", before_return(2, inner));
}

/// Names in the other branch and in conditions.
fn branches(g: &mut Group) {
    let branch = if_else(boolean(true), closed(), discard(var(0)));
    g.refused("the other branch", before_return(1, branch), 11, 5);
    let earlier = if_else(boolean(true), discard(var(0)), closed());
    g.refused("the branch before", before_return(1, earlier), 11, 3);
    let test = if_else(op(EQ, int(0), var(0)), closed(), nop());
    g.refused("the condition of an if", before_return(1, test), 11, 3);
    let turn = while_do(var(0), decl(0, BOOL, nop()));
    g.refused("the condition of a while", before_return(1, turn), 11, 2);
}

/// Names in the last function, and decls of other functions.
fn functions(g: &mut Group) {
    let last = |s: Stmt| {
        let f = taking(INT, 1, 0, 2, seq(decl(1, INT, nop()), s));
        file(&[function(INT, 0, ret(int(0))), function(INT, 0, ret(int(0))), f])
    };
    g.accepted("a parameter anywhere", last(seq(assign(0, int(1)), ret(var(0)))));
    g.refused("a read in the last function", last(ret(var(1))), 11, 10);
    let own = two(decl_main(), function(INT, 1, seq(closed(), ret(var(0)))));
    let own = own.with(|f| f.functions[0].vars = 1);
    g.refused("a decl in main does not count for f1", own, 11, 11);
}

/// main's body with a decl over its return.
fn decl_main() -> Stmt {
    decl(0, INT, seq(assign(0, int(3)), ret(var(0))))
}
