//! Programs that go down first and then repeat one loop there, and programs of a given size that run without end.

use crate::record::File;
use crate::tree::*;

/// A named turn of a loop in a function whose variable 0 is an int.
pub type Turn = (&'static str, fn() -> Stmt);

/// The loops that are repeated below.
pub const TURNS: [Turn; 3] =
    [("counting", counting), ("arithmetic", arithmetic), ("a call of two arguments", a_call)];

/// `x0 = x0 + 1`.
fn counting() -> Stmt {
    assign(0, op(ADD, var(0), int(1)))
}

/// A longer expression of x0.
fn arithmetic() -> Stmt {
    let product = op(MUL, op(ADD, var(0), int(7)), op(SUB, var(0), int(3)));
    assign(0, op(REM, op(SHR, product, int(2)), int(1009)))
}

/// `x0 = f2(x0, 1)`.
fn a_call() -> Stmt {
    assign(0, call(2, vec![var(0), int(1)]))
}

/// Repeats a turn in function 1, with so many callers saved, main's empty one included, and so many seqs around the loop.
///
/// Under the loop `callers` − 1 returns wait for a call's value, then a return statement, then one nop for each seq.
pub fn deep(callers: usize, seqs: usize, turn: Stmt) -> File {
    let inner = (0..seqs).fold(while_do(boolean(true), turn), |s, _| seq(s, nop()));
    let down = ret(call(1, vec![op(SUB, var(0), int(1))]));
    let body = if_else(op(LT, var(0), int(1)), seq(inner, ret(var(0))), down);
    let main = function(INT, 0, ret(call(1, vec![int(callers as i32 - 2)])));
    file(&[main, taking(INT, 1, 0, 1, body), taking(INT, 2, 0, 2, ret(op(ADD, var(0), var(1))))])
}

/// An endless loop over assigns of 64 variables, of close to so many nodes, at least 512.
pub fn long_loop(nodes: usize) -> File {
    let vars: u32 = 64;
    let one = |i: u32| {
        let value = op(ADD, var(i % vars), var((i * 7 + 3) % vars));
        assign((i * 5 + 1) % vars, value)
    };
    let turns = (nodes - 6 - 4 * vars as usize) / 5;
    let turn = (0..turns as u32).fold(nop(), |s, i| seq(one(i), s));
    let all = seq(while_do(boolean(true), turn), ret(var(0)));
    let set = (0..vars).fold(all, |s, x| seq(assign(x, int(1)), s));
    main(vars as u8, (0..vars).fold(set, |s, x| decl(x, INT, s)))
}

/// Assigns that wait one after the other under an endless loop, of close to so many nodes.
pub fn waiting(nodes: usize) -> File {
    let assigns = ((nodes - 8) / 7).min(505);
    let inner = (0..assigns).fold(while_do(boolean(true), nop()), |s, _| {
        seq(s, assign(0, op(ADD, op(MUL, var(0), int(3)), int(1))))
    });
    main(1, decl(0, INT, seq(assign(0, int(0)), seq(inner, ret(var(0))))))
}

/// So many whiles, each the body of the one around it, and the innermost one with a body of close to so many nodes.
pub fn nested_whiles(whiles: usize, nodes: usize) -> File {
    let body = (0..nodes / 2).fold(nop(), |s, _| seq(nop(), s));
    let all = (0..whiles).fold(body, |s, _| while_do(boolean(true), s));
    main(0, seq(all, ret(int(0))))
}
