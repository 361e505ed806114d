//! Question 12: types.

use super::base::{before_return, procedure, two};
use crate::case::Group;
use generators::tree::*;

/// Question 12 of every node that wants a type.
pub fn question_12() -> Group {
    let mut g = Group::new("question 12");
    operators(&mut g);
    conditions(&mut g);
    assigns(&mut g);
    calls(&mut g);
    returns(&mut g);
    let both = decl(0, INT, seq(discard(var(0)), ret(boolean(true))));
    g.refused("and question 13", main(1, both), 12, 5);
    let two_faults = seq(assert_that(int(1)), ret(boolean(true)));
    g.refused("the lower of two", main(0, two_faults), 12, 3);
    let once = assert_that(op(ADD, boolean(true), int(1)));
    g.refused("a fault below a fault", before_return(0, once), 12, 4);
    g
}

/// All operators and &&.
fn operators(g: &mut Group) {
    for number in 0..16 {
        let place = 4;
        let wrong = [
            (boolean(true), int(1)),
            (int(1), boolean(true)),
            (nothing(), int(1)),
            (int(1), nothing()),
        ];
        for (left, right) in wrong {
            let statement = discard(op(number, left, right));
            g.refused(
                format!("an operand of operator {number}"),
                before_return(0, statement),
                12,
                place,
            );
        }
        let (result, other) = if number < 10 { (INT, BOOL) } else { (BOOL, INT) };
        let body = || ret(op(number, int(1), int(2)));
        g.accepted(
            format!("result of operator {number}"),
            two(ret(int(0)), function(result, 0, body())),
        );
        g.refused(
            format!("not its result, {number}"),
            two(ret(int(0)), function(other, 0, body())),
            12,
            8,
        );
    }
    for (left, right) in
        [(int(1), boolean(true)), (boolean(true), int(1)), (boolean(true), nothing())]
    {
        g.refused("an operand of &&", before_return(0, discard(and(left, right))), 12, 4);
    }
    let all = and(and(boolean(true), op(LT, int(1), int(2))), boolean(false));
    g.accepted("&& of bools", before_return(0, assert_that(all)));
    g.refused("return of &&", main(0, ret(and(boolean(true), boolean(true)))), 12, 5);
}

/// Conditions and asserts.
fn conditions(g: &mut Group) {
    for wrong in [int(1), nothing()] {
        g.refused("assert", before_return(0, assert_that(wrong.clone())), 12, 3);
        g.refused("if", before_return(0, if_else(wrong.clone(), nop(), nop())), 12, 5);
        g.refused("while", before_return(0, while_do(wrong, nop())), 12, 4);
    }
    g.accepted("if of a bool", before_return(0, if_else(boolean(true), nop(), nop())));
    let call_of = || call(1, vec![]);
    g.refused(
        "assert of a procedure",
        two(seq(assert_that(call_of()), ret(int(0))), procedure()),
        12,
        4,
    );
    let inner = while_do(boolean(true), assert_that(int(1)));
    g.refused(
        "the body's fault stands before the while's",
        before_return(0, while_do(int(1), inner)),
        12,
        5,
    );
}

/// Assigns of variables and parameters.
fn assigns(g: &mut Group) {
    for (ty, value, right) in [
        (INT, int(1), true),
        (INT, boolean(true), false),
        (BOOL, boolean(true), true),
        (BOOL, int(1), false),
        (INT, nothing(), false),
        (BOOL, nothing(), false),
    ] {
        let body = || seq(assign(0, value.clone()), ret(int(0)));
        let own = main(1, decl(0, ty, body()));
        let mask = u8::from(ty == BOOL);
        let parameter = two(ret(int(0)), taking(INT, 1, mask, 1, body()));
        if right {
            g.accepted(format!("assign to a variable of type {ty}"), own);
            g.accepted(format!("assign to a parameter of type {ty}"), parameter);
        } else {
            g.refused(format!("assign to a variable of type {ty}"), own, 12, 3);
            g.refused(format!("assign to a parameter of type {ty}"), parameter, 12, 6);
        }
    }
    let later = decl(0, BOOL, seq(assign(0, boolean(true)), ret(var(0))));
    g.refused("a bool variable returned", main(1, later), 12, 5);
    let all = (1..64).fold(seq(assign(63, boolean(true)), ret(int(0))), |s, x| decl(x, INT, s));
    g.refused("assign to the last variable", main(64, decl(0, INT, all)), 12, 3);
    let last = (1..64).fold(ret(var(63)), |s, x| decl(x, if x == 63 { BOOL } else { INT }, s));
    g.refused("the last variable's type", main(64, decl(0, INT, last)), 12, 3);
}

/// Arguments.
fn calls(g: &mut Group) {
    let callee = || taking(INT, 8, 0b1001_0010, 8, ret(int(0)));
    let argument = |i: u32| {
        if (0b1001_0010 >> i) & 1 == 1 {
            boolean(true)
        } else {
            int(1)
        }
    };
    let right = (0..8).map(argument).collect();
    g.accepted("eight arguments", two(ret(call(1, right)), callee()));
    for wrong in 0..8 {
        for given in [None, Some(nothing())] {
            let mut all: Vec<Expr> = (0..8).map(argument).collect();
            let swapped = if wrong % 3 == 1 { int(1) } else { boolean(true) };
            all[wrong] = given.unwrap_or(swapped);
            g.refused(format!("argument {wrong}"), two(ret(call(1, all)), callee()), 12, 11);
        }
    }
}

/// Returns, in the first, the middle and the last function.
fn returns(g: &mut Group) {
    let right = |ty: u8| match ty {
        NOTHING => nothing(),
        INT => int(1),
        _ => boolean(true),
    };
    for (at, place) in [(0, 5), (1, 7), (2, 9)] {
        for (result, given) in
            [(NOTHING, 1), (NOTHING, 2), (INT, 0), (INT, 2), (BOOL, 0), (BOOL, 1)]
        {
            if at == 0 && result != INT {
                continue;
            }
            let own = |i| {
                if i == at {
                    function(result, 0, ret(right(given)))
                } else {
                    function(INT, 0, ret(int(0)))
                }
            };
            g.refused(
                format!("f{at} returns {given} for {result}"),
                file(&[own(0), own(1), own(2)]),
                12,
                place,
            );
        }
    }
    for result in [NOTHING, INT, BOOL] {
        let f = function(result, 0, ret(right(result)));
        g.accepted(format!("a function of result {result}"), two(ret(int(0)), f));
    }
    let swapped = seq(ret(boolean(true)), ret(int(0)));
    g.refused("a return that is not the last", main(0, swapped), 12, 3);
}
