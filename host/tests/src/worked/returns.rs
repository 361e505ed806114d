//! Question 14: bodies that return.

use crate::case::Group;
use generators::tree::*;

/// A return.
fn out() -> Stmt {
    ret(int(0))
}

/// An if on true.
fn branch(s: Stmt, t: Stmt) -> Stmt {
    if_else(boolean(true), s, t)
}

/// Question 14 of every statement, and of the first, middle and last function.
pub fn question_14() -> Group {
    let mut g = Group::new("question 14");
    returning(&mut g);
    falling_off(&mut g);
    for at in 0..3 {
        for result in [NOTHING, INT] {
            let own = |i| function(INT, 0, if i == at { nop() } else { out() });
            let mut spoilt = file(&[own(0), own(1), own(2)]);
            if at > 0 {
                spoilt.functions[at].result = result;
            }
            g.refused(format!("f{at} of result {result}"), spoilt, 14, 1 + at as u32);
        }
    }
    let all = [function(INT, 0, out()), function(INT, 0, nop()), function(INT, 0, nop())];
    g.refused("the lower of two", file(&all), 14, 2);
    g
}

/// Bodies that return.
fn returning(g: &mut Group) {
    g.accepted("return", main(0, out()));
    g.accepted("seq, the left", main(0, seq(out(), nop())));
    g.accepted("seq, the right", main(0, seq(nop(), out())));
    g.accepted("seq, both", main(0, seq(out(), out())));
    g.accepted("if, both", main(0, branch(out(), out())));
    g.accepted("decl", main(1, decl(0, INT, out())));
    g.accepted("a half and a return", main(0, seq(branch(out(), nop()), out())));
    let mixed = branch(seq(out(), nop()), decl(0, INT, out()));
    g.accepted("seq, if and decl", main(1, seq(nop(), mixed)));
}

/// Bodies that may end without a return.
fn falling_off(g: &mut Group) {
    g.refused("nop", main(0, nop()), 14, 1);
    g.refused("seq, neither", main(0, seq(nop(), nop())), 14, 1);
    g.refused("if, the first", main(0, branch(out(), nop())), 14, 1);
    g.refused("if, the second", main(0, branch(nop(), out())), 14, 1);
    g.refused("if, neither", main(0, branch(nop(), nop())), 14, 1);
    g.refused("while", main(0, while_do(boolean(true), out())), 14, 1);
    g.refused("assert", main(0, assert_that(boolean(true))), 14, 1);
    g.refused("kind 14", main(0, discard(int(1))), 14, 1);
    g.refused("kind 14 over a call of main", main(0, discard(call(0, vec![]))), 14, 1);
    g.refused("decl of nop", main(1, decl(0, INT, nop())), 14, 1);
    g.refused("assign", main(1, decl(0, INT, assign(0, int(1)))), 14, 1);
    let halves = seq(branch(out(), nop()), branch(nop(), out()));
    g.refused("two halves make no whole", main(0, halves), 14, 1);
}
