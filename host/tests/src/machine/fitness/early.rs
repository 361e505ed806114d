//! The cases of early returns: a return counts as giving every variable of its function a value.

use super::sample::{alone, called, Named};
use super::*;
use Control::{Stmt as S, Value as V};
use Frame::Stmt as W;
use Ref::{IfOf, Node as N, Nop, SeqOf};
use Value::{Bool, Int, Nothing as Empty};

/// Node 6 is a while whose body, node 5, returns and then reads x0 at node 4; node 8 is `return 0`,
/// node 10 the decl of x0.
pub fn f6() -> Function {
    let body = seq(ret(int(1)), discard(var(0)));
    function(INT, 1, decl(0, INT, seq(while_do(boolean(true), body), ret(int(0)))))
}

/// A state of f1, which gives nothing, over a main without values and with these frames.
fn over_main(control: Control, caller: &[Frame], frames: &[Frame]) -> State {
    over(control, vec![act(0, &[Empty, Empty], caller), act(1, &[Empty; 3], frames)])
}

/// Reads of what is empty after a return.
pub fn fit() -> Vec<Named> {
    let none = [Empty, Empty];
    let read = || W(N(21));
    let sum = [Frame::First { op: ADD, right: 8 }, Frame::Return, read(), read()];
    let turn = [Frame::Return, W(N(13)), read()];
    let both = [Frame::If(N(9), N(9)), read()];
    let caller = [Frame::Discard, W(N(9)), read()];
    vec![
        ("a return over an empty read", alone(V(Int(5)), &none, &[Frame::Return, read()])),
        ("return(_), assert", called(5, V(Int(6)), &[Empty], &[Frame::Return, W(N(6))])),
        ("return executed, assert", called(5, S(N(11)), &[Empty], &[W(N(6))])),
        ("return waits, assert", called(5, S(Nop), &[Empty], &[W(N(11)), W(N(6))])),
        ("a return below an operator, two reads", alone(V(Int(5)), &none, &sum)),
        ("a while that reads after a return", alone(V(Int(5)), &none, &turn)),
        ("branches that both return over a read", alone(V(Bool(true)), &none, &both)),
        ("a saved caller's return over a read", over_main(S(N(7)), &caller, &[])),
        ("a seq that returns before it reads", called(6, S(N(5)), &[Empty], &[W(N(8))])),
        ("a while with that seq", called(6, S(N(6)), &[Empty], &[W(N(8))])),
        ("a read after that while's seq", called(6, S(SeqOf(6)), &[Empty], &[W(N(4))])),
    ]
}

/// Empty reads that a return does not help.
pub fn unfit() -> Vec<Named> {
    let none = [Empty, Empty];
    let read = || W(N(21));
    let after = |between: Ref| [Frame::Return, W(between), W(N(6))];
    let one = [Frame::If(N(9), Nop), read(), W(N(9))];
    let before = [Frame::Discard, read(), W(N(9))];
    let later = [W(N(4)), W(N(8))];
    vec![
        ("return(_), decl, assert", called(5, V(Int(6)), &[Empty], &after(N(8)))),
        ("return(_), decl, assert of what is held", called(5, V(Int(6)), &[Int(5)], &after(N(8)))),
        ("return(_), while, assert of what is held", called(5, V(Int(6)), &[Int(5)], &after(N(9)))),
        ("return(_), while, assert", called(5, V(Int(6)), &[Empty], &after(N(9)))),
        ("return(_), the while's if, assert", called(5, V(Int(6)), &[Int(5)], &after(IfOf(9)))),
        ("return(_), the while's seq, assert", called(5, V(Int(6)), &[Int(5)], &after(SeqOf(9)))),
        ("a read before the return", alone(S(Nop), &none, &[read(), W(N(9))])),
        ("a return of an empty read", alone(S(N(21)), &none, &[])),
        ("a branch that returns and one that does not", alone(V(Bool(true)), &none, &one)),
        ("a saved caller's read before its return", over_main(S(N(7)), &before, &[])),
        ("the callee's return alone", over_main(V(Empty), &before, &[Frame::Return])),
        (
            "a decl that returns, then a read of what is held",
            called(6, S(N(10)), &[Int(5)], &later),
        ),
        ("a decl that returns, then a read", called(6, S(N(10)), &[Empty], &later)),
        ("a read after a while that returns", called(6, S(N(6)), &[Empty], &later)),
        ("a read after that while's if", called(6, S(IfOf(6)), &[Empty], &later)),
    ]
}
