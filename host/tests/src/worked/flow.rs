//! Question 13: reads.

use super::base::two;
use crate::case::Group;
use generators::tree::*;
use generators::File;

/// main with an int x0 over a statement and `return x0`.
fn then_read(statement: Stmt) -> File {
    main(1, decl(0, INT, seq(statement, ret(var(0)))))
}

/// An assign of x0.
fn set() -> Stmt {
    assign(0, int(1))
}

/// An if on true.
fn branch(s: Stmt, t: Stmt) -> Stmt {
    if_else(boolean(true), s, t)
}

/// Question 13: what each statement leaves, and where reads fail.
pub fn question_13() -> Group {
    let mut g = Group::new("question 13");
    leaves(&mut g);
    returns(&mut g);
    guards(&mut g);
    places(&mut g);
    scopes(&mut g);
    expressions(&mut g);
    let both = main(1, decl(0, INT, discard(var(0))));
    g.refused("and question 14", both, 13, 2);
    g
}

/// What each statement leaves.
fn leaves(g: &mut Group) {
    g.accepted("assign adds", then_read(set()));
    g.accepted("seq of nop and assign", then_read(seq(nop(), set())));
    g.accepted("seq of assign and nop", then_read(seq(set(), nop())));
    g.accepted("if, both assign", then_read(branch(set(), set())));
    g.refused("nop adds nothing", then_read(nop()), 13, 3);
    g.refused("if, the first assigns", then_read(branch(set(), nop())), 13, 7);
    g.refused("if, the second assigns", then_read(branch(nop(), set())), 13, 7);
    g.accepted("if, assigned before", then_read(seq(set(), branch(nop(), nop()))));
    g.refused("while", then_read(while_do(boolean(true), set())), 13, 6);
    g.accepted("while, assigned before", then_read(seq(set(), while_do(boolean(true), nop()))));
    g.refused("assert", then_read(assert_that(boolean(true))), 13, 4);
    g.refused("kind 14", then_read(discard(int(1))), 13, 4);
    g.accepted(
        "assign under another decl",
        main(2, decl(0, INT, seq(decl(1, INT, set()), ret(var(0))))),
    );
    let twice = seq(branch(set(), nop()), branch(nop(), set()));
    g.refused("two halves make no whole", then_read(twice), 13, 13);
    let nested = branch(branch(set(), set()), seq(nop(), set()));
    g.accepted("nested ifs", then_read(nested));
    g.refused(
        "nested ifs, one way without",
        then_read(branch(branch(set(), nop()), set())),
        13,
        11,
    );
    let other = main(2, decl(0, INT, decl(1, INT, seq(assign(1, int(1)), ret(var(0))))));
    g.refused("another variable assigned", other, 13, 4);
}

/// A return counts as giving every variable of the function a value, after its own expression.
fn returns(g: &mut Group) {
    let early = || ret(int(1));
    g.accepted("return", then_read(early()));
    g.accepted("if, the first returns", then_read(branch(early(), set())));
    g.accepted("if, the second returns", then_read(branch(set(), early())));
    g.accepted("if, both return", then_read(branch(early(), early())));
    g.refused("if, the other side does nothing", then_read(branch(early(), nop())), 13, 7);
    g.refused("if, the first does nothing", then_read(branch(nop(), early())), 13, 7);
    let first = branch(seq(early(), discard(var(0))), nop());
    g.refused("a read after the return, then one after the if", then_read(first), 13, 10);
    let own = branch(ret(var(0)), set());
    g.refused("a return's own expression", then_read(own), 13, 3);
    let own = main(1, decl(0, INT, seq(ret(var(0)), ret(var(0)))));
    g.refused("a return's own expression before another", own, 13, 2);
    let all = (0..64).fold(ret(int(0)), |s, x| seq(assert_that(op(EQ, var(x), int(x as i32))), s));
    let all = (0..64).fold(seq(early(), all), |s, x| decl(x, INT, s));
    g.accepted("all 64 variables", main(64, all));
    let callee = taking(INT, 1, 0, 2, decl(1, INT, seq(ret(var(0)), ret(var(1)))));
    g.accepted("beside a parameter", two(ret(int(0)), callee));
    let callee = function(INT, 1, decl(0, INT, ret(var(0))));
    g.refused("main's return does not count in f1", two(seq(early(), nop()), callee), 13, 7);
}

/// What decls and loops take away, though a return stands in them or before them.
fn guards(g: &mut Group) {
    let early = || ret(int(1));
    let other = |s: Stmt| main(2, decl(0, INT, seq(decl(1, INT, s), ret(var(0)))));
    g.accepted("under another decl", other(seq(early(), assign(1, int(2)))));
    g.refused("before its decl", main(1, seq(early(), decl(0, INT, ret(var(0))))), 13, 4);
    let below = seq(early(), seq(nop(), decl(0, INT, decl(1, INT, ret(var(1))))));
    g.refused("before two decls", main(2, below), 13, 5);
    let turn = |s: Stmt| while_do(boolean(true), s);
    g.refused("a loop of a return", then_read(turn(early())), 13, 6);
    let guard = turn(branch(early(), set()));
    g.refused("a guard in a loop, read after it", then_read(guard), 13, 10);
    let inside = |s: Stmt| main(1, decl(0, INT, seq(turn(s), ret(int(0)))));
    g.accepted("read in the same turn", inside(seq(early(), discard(var(0)))));
    let guard = || branch(early(), set());
    g.accepted("a guard and a read in one turn", inside(seq(guard(), discard(var(0)))));
    g.refused("read in the next turn", inside(seq(discard(var(0)), early())), 13, 3);
    let again = |s: Stmt| main(1, seq(turn(decl(0, INT, s)), ret(int(0))));
    g.accepted("a decl in a loop, guarded", again(seq(guard(), discard(var(0)))));
    g.refused("a decl in a loop, read first", again(seq(discard(var(0)), early())), 13, 3);
    let before = seq(early(), seq(turn(nop()), discard(var(0))));
    g.accepted("a return before a loop", then_read(before));
    let nested = branch(branch(early(), set()), branch(set(), seq(early(), nop())));
    g.accepted("nested guards", then_read(nested));
    let nested = branch(branch(early(), nop()), early());
    g.refused("nested guards, one way without", then_read(nested), 13, 11);
}

/// The lowest place among several reads and several functions.
fn places(g: &mut Group) {
    let first = main(1, decl(0, INT, seq(discard(var(0)), seq(set(), ret(var(0))))));
    g.refused("the first node", first, 13, 2);
    let lowest = then_read(branch(discard(var(0)), discard(op(ADD, int(1), var(0)))));
    g.refused("the lowest of three", lowest, 13, 3);
    let bad = || function(INT, 1, decl(0, INT, ret(var(0))));
    let good = || function(INT, 0, ret(int(0)));
    for (at, place) in [(0, 4), (1, 6), (2, 8)] {
        let own = |i| if i == at { bad() } else { good() };
        g.refused(format!("in f{at}"), file(&[own(0), own(1), own(2)]), 13, place);
    }
    g.refused("in f1 and f2", file(&[good(), bad(), bad()]), 13, 6);
    let late = then_read(seq(nop(), seq(nop(), nop())));
    g.refused("the last read", late, 13, 7);
}

/// Parameters, decls and loops.
fn scopes(g: &mut Group) {
    g.accepted("a parameter", two(ret(int(0)), taking(INT, 8, 0, 8, ret(var(7)))));
    let beside = two(ret(int(0)), taking(INT, 1, 0, 2, decl(1, INT, ret(op(ADD, var(0), var(1))))));
    g.refused("x1 beside a parameter", beside, 13, 6);
    let again = while_do(boolean(true), decl(0, INT, seq(set(), discard(var(0)))));
    g.accepted("a decl in a loop", main(1, seq(again, ret(int(0)))));
    let stale = while_do(boolean(true), decl(0, INT, seq(discard(var(0)), set())));
    g.refused("a decl in a loop starts empty", main(1, seq(stale, ret(int(0)))), 13, 3);
    let outer = while_do(var(0), assign(0, boolean(false)));
    let body = decl(0, BOOL, seq(assign(0, boolean(true)), seq(outer, assert_that(var(0)))));
    g.accepted("assigned before, read in condition and after", main(1, seq(body, ret(int(0)))));
    let test = decl(0, BOOL, while_do(var(0), assign(0, boolean(true))));
    g.refused("read in a while's condition", main(1, seq(test, ret(int(0)))), 13, 2);
    let test = decl(0, BOOL, if_else(var(0), nop(), nop()));
    g.refused("read in an if's condition", main(1, seq(test, ret(int(0)))), 13, 2);
    let last = (0..63).fold(seq(assign(63, int(1)), ret(var(63))), |s, x| decl(x, INT, s));
    g.accepted("x63 assigned and read", main(64, decl(63, INT, last)));
    let last = (0..63).fold(seq(assign(62, int(1)), ret(var(63))), |s, x| decl(x, INT, s));
    g.refused("x62 assigned, x63 read", main(64, decl(63, INT, last)), 13, 4);
}

/// Reads inside expressions.
fn expressions(g: &mut Group) {
    let over = |e: Expr| main(1, decl(0, INT, seq(discard(e), ret(int(0)))));
    g.refused("left of +", over(op(ADD, var(0), int(1))), 13, 2);
    g.refused("right of +", over(op(ADD, int(1), var(0))), 13, 3);
    g.refused("right of &&", over(and(boolean(false), op(LT, int(1), var(0)))), 13, 4);
    let callee = taking(INT, 3, 0, 3, ret(int(0)));
    for (at, place) in [(0, 3), (1, 4), (2, 5)] {
        let arguments = (0..3).map(|i| if i == at { var(0) } else { int(1) }).collect();
        let body = decl(0, INT, ret(call(1, arguments)));
        let file = file(&[function(INT, 1, body), callee.clone()]);
        g.refused(format!("argument {at}"), file, 13, place);
    }
    g.refused("in its own assign", then_read(assign(0, op(ADD, var(0), int(1)))), 13, 2);
    g.accepted("in its second assign", then_read(seq(set(), assign(0, op(ADD, var(0), int(1))))));
}
