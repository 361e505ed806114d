//! The file of the cases, and the cases.

use super::*;
use Control::{Expr as E, Stmt as S, Value as V};
use Frame::Stmt as W;
use Ref::{IfOf, Node as N, Nop, SeqOf};
use Value::{Bool, Int, Nothing as Empty};

/// Main: node 13 is the while, 21 `return x0 + 2`, 20 its sum, 9 `return 3`, 8 its int.
pub fn f0() -> Function {
    let early = if_else(var(1), ret(int(3)), nop());
    let turn = seq(assign(1, boolean(false)), early);
    let last = seq(discard(call(1, vec![var(0), var(1)])), ret(op(ADD, var(0), int(2))));
    let rest = seq(assign(1, boolean(true)), seq(while_do(var(1), turn), last));
    function(INT, 2, decl(0, INT, decl(1, BOOL, seq(assign(0, int(1)), rest))))
}

/// Nothing of an int and a bool: node 7 is `return nothing`.
pub fn f1() -> Function {
    let set = if_else(var(1), assign(2, var(0)), assign(2, int(5)));
    taking(NOTHING, 2, 2, 3, decl(2, INT, seq(set, ret(nothing()))))
}

/// The square of an int.
pub fn f2() -> Function {
    taking(INT, 1, 0, 1, ret(op(MUL, var(0), var(0))))
}

/// Whether an int is negative.
pub fn f3() -> Function {
    taking(BOOL, 1, 0, 1, ret(op(LT, var(0), int(0))))
}

/// Node 10 is a while whose body, node 9, returns; node 12 is `return 4`.
pub fn f4() -> Function {
    let set = if_else(boolean(false), assign(0, int(1)), nop());
    let body = decl(0, INT, seq(set, ret(int(9))));
    function(INT, 1, seq(while_do(boolean(true), body), ret(int(4))))
}

/// Node 9 is a while over a decl, node 8; node 6 asserts of x0, node 11 is `return 6`.
pub fn f5() -> Function {
    let body = seq(assign(0, int(1)), assert_that(op(EQ, var(0), int(1))));
    function(INT, 1, seq(while_do(boolean(true), decl(0, INT, body)), ret(int(6))))
}

/// An activation of main that waits for an int, under one of another function.
fn main_waits() -> Activation {
    act(0, &[Empty, Empty], &[Frame::Return])
}

/// A state of main alone.
pub fn alone(control: Control, vars: &[Value], frames: &[Frame]) -> State {
    over(control, vec![act(0, vars, frames)])
}

/// A state of a function called by main.
pub fn called(function: usize, control: Control, vars: &[Value], frames: &[Frame]) -> State {
    over(control, vec![main_waits(), act(function, vars, frames)])
}

/// States of f1, which gives nothing, over a main that discards.
fn procedure(control: Control, vars: &[Value], frames: &[Frame]) -> State {
    let caller = act(0, &[Empty, Empty], &[Frame::Discard, W(N(9))]);
    over(control, vec![caller, act(1, vars, frames)])
}

/// So many activations of main, each waiting in a return but the last, which has so many frames more.
pub fn tower(activations: usize, waits: usize) -> State {
    let mut all = vec![main_waits(); activations - 1];
    let frames = [vec![W(Nop); waits], vec![W(N(9))]].concat();
    all.push(act(0, &[Empty, Empty], &frames));
    over(S(Nop), all)
}

/// All cases.
pub fn cases() -> Vec<Case> {
    let mut cases = Vec::new();
    let lists = [
        (true, fit()),
        (false, unfit()),
        (true, fit_loops()),
        (false, unfit_loops()),
        (true, early::fit()),
        (false, early::unfit()),
    ];
    for (fit, list) in lists {
        cases.extend(list.into_iter().map(|(name, state)| Case { name, state, fit }));
    }
    cases
}

/// A named state.
pub type Named = (&'static str, State);

/// States that are fit.
fn fit() -> Vec<Named> {
    let none = [Empty, Empty];
    let free = [Frame::First { op: MUL, right: 8 }, Frame::Return];
    let two_ifs = [Frame::If(N(9), N(21))];
    let arguments = Frame::Call { callee: 1, done: vec![Int(7)], rest: vec![] };
    let others = [arguments, Frame::Discard, W(N(9))];
    vec![
        ("a value that no run gives", State::Value(-5)),
        ("arith", State::Arith),
        ("abort", State::Abort),
        ("any int without callers", State::Returned(i32::MIN)),
        ("an operand that is no operator's child", alone(V(Int(5)), &none, &free)),
        ("branches of different ifs", alone(V(Bool(true)), &[Int(1), Empty], &two_ifs)),
        ("a call's last argument", alone(V(Bool(false)), &none, &others)),
        (
            "a return over a read that is held",
            alone(V(Int(5)), &[Int(0), Empty], &[Frame::Return, W(N(21))]),
        ),
        ("a parameter without a value", procedure(S(N(7)), &[Empty, Bool(true), Empty], &[])),
        ("nothing over return", procedure(V(Empty), &[Empty; 3], &[Frame::Return])),
        ("nothing over discard", alone(V(Empty), &none, &[Frame::Discard, W(N(9))])),
        ("a bool over discard", alone(V(Bool(true)), &none, &[Frame::Discard, W(N(9))])),
        ("main calls main", over(S(N(9)), vec![main_waits(), act(0, &none, &[])])),
        ("13 activations", tower(13, 0)),
        ("14 activations", tower(14, 0)),
        ("512 frames", tower(1, 511)),
        ("512 frames in 14 activations", tower(14, 498)),
        ("a while's if that waits", alone(S(Nop), &[Int(1), Bool(false)], &[W(IfOf(13)), W(N(9))])),
        ("a variable out of scope", alone(S(N(9)), &[Int(3), Bool(true)], &[])),
    ]
}

/// States that are not fit.
fn unfit() -> Vec<Named> {
    let none = [Empty, Empty];
    let arguments = |done: &[Value], rest: &[u32]| {
        let frame = Frame::Call { callee: 1, done: done.to_vec(), rest: rest.to_vec() };
        alone(V(Bool(false)), &[Int(1), Bool(true)], &[frame, Frame::Discard, W(N(9))])
    };
    let assign = [Frame::Assign(0), Frame::Return];
    let bad_op = [Frame::Second { op: 16, left: 1 }, Frame::Assert, W(N(9))];
    let bad_first = [Frame::First { op: 16, right: 8 }, Frame::Assert, W(N(9))];
    vec![
        ("no activation", over(V(Int(1)), vec![])),
        ("main not outermost", over(S(N(3)), vec![act(2, &[Int(5)], &[])])),
        ("no such function", called(7, V(Int(1)), &[], &[Frame::Return])),
        ("a caller without frames", over(S(N(9)), vec![act(0, &none, &[]), act(0, &none, &[])])),
        ("assign over return", alone(V(Int(5)), &none, &assign)),
        ("discard over return", alone(V(Int(5)), &none, &[Frame::Discard, Frame::Return])),
        ("a value over a waiting statement", alone(V(Empty), &none, &[W(N(9))])),
        ("a value over no frame", alone(V(Int(1)), &none, &[])),
        ("a bool over main's return", alone(V(Bool(true)), &none, &[Frame::Return])),
        ("a statement over return", alone(S(Nop), &none, &[Frame::Return])),
        ("an operator past the last", alone(V(Int(1)), &none, &bad_op)),
        ("an operator past the last with a node", alone(V(Int(1)), &none, &bad_first)),
        ("a constant's node", alone(E(8), &none, &[Frame::Return])),
        ("a statement's node evaluated", alone(E(9), &none, &[Frame::Return])),
        ("a node past the function", alone(S(N(28)), &none, &[])),
        ("a nop's node", alone(S(N(10)), &none, &[W(N(9))])),
        ("the if of what is no while", alone(S(IfOf(11)), &[Int(1), Bool(true)], &[W(N(9))])),
        ("an expression executed", alone(S(N(20)), &[Int(1), Empty], &[W(N(9))])),
        ("an empty read", alone(E(20), &none, &[Frame::Return])),
        ("a bool in an int", alone(S(N(9)), &[Bool(true), Empty], &[])),
        ("an int in a bool", alone(S(N(9)), &[Empty, Int(1)], &[])),
        ("a variable too many", alone(S(N(9)), &[Empty; 3], &[])),
        ("a variable too few", alone(S(N(9)), &[Empty], &[])),
        (
            "a caller that wants another type",
            over(V(Bool(true)), vec![main_waits(), act(3, &[Empty], &[Frame::Return])]),
        ),
        ("no argument held", arguments(&[], &[])),
        ("an argument too many", arguments(&[Int(1)], &[4])),
        ("a bool for an int", arguments(&[Bool(true)], &[])),
        ("nothing to return", alone(S(Nop), &[Int(1), Bool(true)], &[W(N(13))])),
        ("an assign of no variable", alone(V(Int(1)), &none, &[Frame::Assign(2), W(N(9))])),
        ("15 activations", tower(15, 0)),
        ("32 activations", tower(32, 0)),
        ("33 activations", tower(33, 0)),
        ("513 frames", tower(1, 512)),
        ("513 frames in 14 activations", tower(14, 499)),
        ("512 frames in 15 activations", tower(15, 497)),
    ]
}

/// Forms of whiles and decls that are fit.
fn fit_loops() -> Vec<Named> {
    let either = [Frame::If(SeqOf(10), N(12))];
    vec![
        ("the seq of a while whose body returns", called(4, S(SeqOf(10)), &[Empty], &[])),
        ("an if of that seq and a return", called(4, V(Bool(true)), &[Empty], &either)),
        ("a read that is held", called(5, S(Nop), &[Int(5)], &[W(N(6)), W(N(11))])),
        ("a read after the decl ran", called(5, S(N(7)), &[Empty], &[W(N(6)), W(N(11))])),
        ("a seq that sets what the while reads", alone(S(SeqOf(13)), &[Int(1), Empty], &[W(N(9))])),
        ("a while before a return", called(5, S(N(9)), &[Int(5)], &[W(N(11))])),
    ]
}

/// Forms of whiles and decls that are not fit.
fn unfit_loops() -> Vec<Named> {
    let either = [Frame::If(SeqOf(10), Nop)];
    vec![
        ("an if that reads an empty variable", alone(S(IfOf(13)), &[Int(1), Empty], &[W(N(9))])),
        ("a while that reads an empty variable", alone(S(N(13)), &[Int(1), Empty], &[W(N(9))])),
        ("a while alone", called(4, S(N(10)), &[Empty], &[])),
        ("the if of a while alone", called(4, S(IfOf(10)), &[Empty], &[])),
        ("an if whose second branch does not return", called(4, V(Bool(true)), &[Empty], &either)),
        ("a read after a decl to run", called(5, S(N(8)), &[Int(5)], &[W(N(6)), W(N(11))])),
        ("a read after a loop with its decl", called(5, S(N(9)), &[Int(5)], &[W(N(6)), W(N(11))])),
        ("a read after that loop's if", called(5, S(IfOf(9)), &[Int(5)], &[W(N(6)), W(N(11))])),
        ("a read after that loop's seq", called(5, S(SeqOf(9)), &[Int(5)], &[W(N(6)), W(N(11))])),
    ]
}
