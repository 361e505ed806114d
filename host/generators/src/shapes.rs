//! Files of regular shapes with close to a given number of nodes, up to the greatest.

use crate::record::File;
use crate::tree::*;

/// A shape: its name and the accepted file of at most so many nodes.
pub type Shape = (&'static str, fn(usize) -> File);

/// All shapes.
pub const ALL: [Shape; 20] = [
    ("balanced arithmetic", arithmetic),
    ("arithmetic nested left", arithmetic_left),
    ("arithmetic nested right", arithmetic_right),
    ("&& nested right", ands),
    ("seq nested right", seq_right),
    ("seq nested left", seq_left),
    ("one-argument calls nested", calls),
    ("eight-argument calls", wide_calls),
    ("many functions", functions),
    ("ifs nested in the first branch", ifs),
    ("ifs nested in the second branch", ifs_second),
    ("whiles nested", whiles),
    ("64 decls, many uses", decls),
    ("reads under a deep seq", deep_reads),
    ("reads in conditions of nested ifs", if_reads),
    ("reads in conditions of nested whiles", while_reads),
    ("assigns in both branches", branches),
    ("expression statements", discards),
    ("decls in nested whiles", while_decls),
    ("early returns in guards", guards),
];

/// Wraps a statement so many times.
fn nest(times: usize, inner: Stmt, wrap: impl Fn(Stmt) -> Stmt) -> Stmt {
    (0..times).fold(inner, |inner, _| wrap(inner))
}

/// Wraps an expression so many times.
fn nest_expr(times: usize, inner: Expr, wrap: impl Fn(Expr) -> Expr) -> Expr {
    (0..times).fold(inner, |inner, _| wrap(inner))
}

/// A balanced tree of operators over so many constants.
fn balanced(leaves: usize) -> Expr {
    if leaves <= 1 {
        return int(7);
    }
    let number = (leaves % 10) as u8;
    op(number, balanced(leaves / 2), balanced(leaves - leaves / 2))
}

/// return of a balanced tree of operators.
pub fn arithmetic(nodes: usize) -> File {
    main(0, ret(balanced(nodes / 2)))
}

/// return of operators nested to the left.
pub fn arithmetic_left(nodes: usize) -> File {
    main(0, ret(nest_expr((nodes - 2) / 2, int(1), |e| op(ADD, e, int(2)))))
}

/// return of operators nested to the right.
pub fn arithmetic_right(nodes: usize) -> File {
    main(0, ret(nest_expr((nodes - 2) / 2, int(1), |e| op(SUB, int(2), e))))
}

/// An assert of && nested to the right.
pub fn ands(nodes: usize) -> File {
    let all = nest_expr((nodes - 5) / 2, boolean(true), |e| and(boolean(true), e));
    main(0, seq(assert_that(all), ret(int(0))))
}

/// A statement of two nodes inside as many others as a file has room for, 2,079: 2,015 of two nodes each, and 64 decls around them.
pub fn deepest(inner: Stmt, wrap: impl Fn(Stmt) -> Stmt) -> File {
    main(64, (0..64).fold(nest(2015, inner, wrap), |s, x| decl(x, INT, s)))
}

/// nops before a return, nested to the right.
pub fn seq_right(nodes: usize) -> File {
    main(0, nest((nodes - 2) / 2, ret(int(0)), |s| seq(nop(), s)))
}

/// nops after a return, nested to the left.
pub fn seq_left(nodes: usize) -> File {
    main(0, nest((nodes - 2) / 2, ret(int(0)), |s| seq(s, nop())))
}

/// return f1(f1(..f1(0)..)) with f1 seq(nop, return x0).
pub fn calls(nodes: usize) -> File {
    let body = ret(nest_expr(nodes - 6, int(0), |e| call(1, vec![e])));
    let callee = taking(INT, 1, 0, 1, seq(nop(), ret(var(0))));
    file(&[function(INT, 0, body), callee])
}

/// Calls of eight arguments nested in the last one.
pub fn wide_calls(nodes: usize) -> File {
    let wide = |last| {
        let mut arguments: Vec<Expr> = (0..7).map(|i| boolean(i % 2 == 0)).collect();
        arguments.push(last);
        call(1, arguments)
    };
    let body = ret(nest_expr((nodes - 4) / 8, int(0), wide));
    file(&[function(INT, 0, body), taking(INT, 8, 0x7F, 8, ret(var(7)))])
}

/// As many functions as there can be, each calling the next.
pub fn functions(nodes: usize) -> File {
    let count = (nodes / 2).min(128);
    let each = nodes / count;
    let one = |i: usize| {
        let callee = call(((i + 1) % count) as u32, Vec::new());
        function(INT, 0, nest((each - 2) / 2, ret(callee), |s| seq(nop(), s)))
    };
    file(&(0..count).map(one).collect::<Vec<Function>>())
}

/// ifs nested in the first branch, all returning.
pub fn ifs(nodes: usize) -> File {
    main(0, nest((nodes - 2) / 4, ret(int(0)), |s| if_else(boolean(true), s, ret(int(1)))))
}

/// ifs nested in the second branch, all returning.
pub fn ifs_second(nodes: usize) -> File {
    main(0, nest((nodes - 2) / 4, ret(int(0)), |s| if_else(boolean(true), ret(int(1)), s)))
}

/// whiles nested in each other.
pub fn whiles(nodes: usize) -> File {
    let all = nest((nodes - 4) / 2, nop(), |s| while_do(boolean(true), s));
    main(0, seq(all, ret(int(0))))
}

/// 64 variables declared, all assigned, then read and assigned in turn.
pub fn decls(nodes: usize) -> File {
    let vars: u32 = if nodes < 512 { 16 } else { 64 };
    let step = |i: u32| {
        let value = op(ADD, var(i % vars), var((i * 7 + 3) % vars));
        assign((i * 5 + 1) % vars, value)
    };
    let steps = (nodes - 2 - 4 * vars as usize) / 5;
    let uses = (0..steps as u32).fold(ret(var(vars - 1)), |s, i| seq(step(i), s));
    let all = (0..vars).fold(uses, |s, x| seq(assign(x, int(0)), s));
    main(vars as u8, (0..vars).fold(all, |s, x| decl(x, INT, s)))
}

/// One variable assigned, then read by each statement of a seq nested to the right.
pub fn deep_reads(nodes: usize) -> File {
    let reads = nest((nodes - 6) / 3, ret(var(0)), |s| seq(discard(var(0)), s));
    main(1, decl(0, INT, seq(assign(0, int(1)), reads)))
}

/// One variable assigned, then read by the condition of each of the nested ifs.
pub fn if_reads(nodes: usize) -> File {
    let reads = nest((nodes - 6) / 4, ret(int(0)), |s| if_else(var(0), s, ret(int(1))));
    main(1, decl(0, BOOL, seq(assign(0, boolean(true)), reads)))
}

/// One variable assigned, then read by the condition of each of the nested whiles.
pub fn while_reads(nodes: usize) -> File {
    let reads = nest((nodes - 8) / 2, nop(), |s| while_do(var(0), s));
    main(1, decl(0, BOOL, seq(assign(0, boolean(true)), seq(reads, ret(int(0))))))
}

/// ifs that assign a variable in both branches, one after the other, and reads of it.
pub fn branches(nodes: usize) -> File {
    let set = || if_else(boolean(true), assign(0, int(1)), assign(0, int(2)));
    let all = nest((nodes - 4) / 10, ret(int(0)), |s| seq(set(), seq(discard(var(0)), s)));
    main(1, decl(0, INT, all))
}

/// Expression statements of all three types.
pub fn discards(nodes: usize) -> File {
    let all = nest((nodes - 4) / 9, ret(int(0)), |s| {
        let tail = seq(discard(call(1, Vec::new())), s);
        seq(discard(nothing()), seq(discard(boolean(true)), tail))
    });
    file(&[function(INT, 0, all), function(NOTHING, 0, ret(nothing()))])
}

/// 64 decls or fewer, each in a while of its own inside the last one's.
pub fn while_decls(nodes: usize) -> File {
    let count = ((nodes - 6) / 6).min(64) as u32;
    let filler = nest((nodes - 6 - 6 * count as usize) / 2, nop(), |s| seq(nop(), s));
    let all = (0..count)
        .fold(filler, |s, x| while_do(boolean(false), decl(x, INT, seq(assign(x, int(1)), s))));
    main(count as u8, seq(all, ret(int(0))))
}

/// Guards that return early or set a variable, which the next one reads; each of the first 63 sets one that has no value yet.
pub fn guards(nodes: usize) -> File {
    let vars = (1 + (nodes - 6) / 12).min(64) as u32;
    let count = ((nodes - 5 - vars as usize) / 11) as u32;
    let set = |i: u32| if i == 0 { 0 } else { 1 + (i - 1) % (vars - 1) };
    let guard = |i: u32| {
        let small = op(LT, var(0), int(i as i32));
        if_else(small, ret(int(i as i32)), assign(set(i), op(ADD, var(set(i - 1)), int(1))))
    };
    let all = (1..=count).rev().fold(ret(var(set(count))), |s, i| seq(guard(i), s));
    let all = seq(assign(0, int(count as i32)), all);
    main(vars as u8, (0..vars).fold(all, |s, x| decl(x, INT, s)))
}
