//! Programs with their outcomes and steps, counted by hand from the rules.

use super::editions;
use generators::tree::*;
use generators::{shapes, File};
use reference::machine::Outcome::{self, Abort, Arith, Full, Spent, Value};
use reference::Refusal;

/// A program with an allowance and what its run from the start must answer.
pub struct Row {
    pub name: String,
    pub file: File,
    pub allowance: u64,
    pub expected: (Outcome, u64),
}

/// A row with an allowance.
fn allowed(name: &str, file: File, allowance: u64, expected: (Outcome, u64)) -> Row {
    Row { name: name.to_string(), file, allowance, expected }
}

/// A row with an allowance that does not bite.
fn row(name: &str, file: File, outcome: Outcome, steps: u64) -> Row {
    allowed(name, file, 10_000, (outcome, steps))
}

/// A row of an operator on two ints in `return`.
fn operator(name: &str, number: u8, l: i32, r: i32, result: i32) -> Row {
    row(name, main(0, ret(op(number, int(l), int(r)))), Value(result), 7)
}

/// `return f()` with f `return f()`.
pub fn calls_itself() -> File {
    let f = || function(INT, 0, ret(call(1, vec![])));
    file(&[f(), f()])
}

/// `return f(n)` with f(n) `if(n == 0, return 0, return f(n - 1))`, which saves n + 2 callers, main's empty one among them.
fn counts_down(n: i32) -> File {
    let again = ret(call(1, vec![op(SUB, var(0), int(1))]));
    let body = if_else(op(EQ, var(0), int(0)), ret(int(0)), again);
    file(&[function(INT, 0, ret(call(1, vec![int(n)]))), taking(INT, 1, 0, 1, body)])
}

/// A statement under an int x0, and `return x0` after it.
fn then_read(statement: Stmt) -> File {
    main(1, decl(0, INT, seq(statement, ret(var(0)))))
}

/// `if(c, return e, x0 = 2)` and a read of x0 after it.
fn guard(c: Expr, e: Expr) -> File {
    then_read(if_else(c, ret(e), assign(0, int(2))))
}

/// Early returns before reads that cannot come to pass.
fn early_returns() -> Vec<Row> {
    let early = || ret(int(1));
    let two = seq(decl(1, INT, seq(early(), assign(1, int(2)))), ret(var(0)));
    let turn = while_do(boolean(true), seq(early(), discard(var(0))));
    let skipped = while_do(boolean(false), seq(early(), discard(var(0))));
    let within = |s: Stmt| main(1, decl(0, INT, seq(s, ret(int(0)))));
    vec![
        row("a guard that is not taken", guard(boolean(false), int(1)), Value(2), 12),
        row("a guard that divides by 0", guard(boolean(true), op(DIV, int(1), int(0))), Arith, 9),
        row("a return before a read", then_read(early()), Value(1), 6),
        row("a return under another decl", main(2, decl(0, INT, two)), Value(1), 8),
        row("a return before a read in a loop", within(turn), Value(1), 11),
        row("a loop of no turn with such a read", within(skipped), Value(0), 10),
    ]
}

/// The paper's rows that run.
pub fn table() -> Vec<Row> {
    let zero = || main(0, ret(int(0)));
    let sum = op(ADD, op(MUL, op(ADD, int(4), int(5)), int(10)), int(2));
    let abort = seq(assert_that(boolean(false)), ret(int(0)));
    vec![
        row("return 0", zero(), Value(0), 4),
        row("return ((4+5)×10)+2", main(0, ret(sum)), Value(92), 13),
        row("return 1/0", main(0, ret(op(DIV, int(1), int(0)))), Arith, 5),
        row("return −2^31 % −1", main(0, ret(op(REM, int(i32::MIN), int(-1)))), Arith, 5),
        operator("return 2147483647+1", ADD, i32::MAX, 1, i32::MIN),
        operator("return −7/2", DIV, -7, 2, -3),
        operator("return −7%2", REM, -7, 2, -1),
        operator("return 1<<33", SHL, 1, 33, 2),
        operator("return −1>>1", SHR, -1, 1, -1),
        row("seq(assert false, return 0)", main(0, abort), Abort, 4),
        row("return f(), f: return f()", calls_itself(), Full, 28),
        row("decl(0, int, seq(if(..), return var 0))", guard(boolean(true), int(1)), Value(1), 8),
        allowed("return 0 in 3", zero(), 3, (Spent, 3)),
    ]
}

/// The paper's rows that are refused, and a read after a loop of an early return.
pub fn refused() -> Vec<(File, Refusal)> {
    let turn = while_do(boolean(true), ret(int(1)));
    vec![
        (main(0, nop()), (14, 1, 0)),
        (main(1, decl(0, INT, ret(var(0)))), (13, 2, 0)),
        (then_read(turn), (13, 6, 0)),
    ]
}

/// A loop of two turns whose body declares x1 and sets it in the first turn alone.
pub fn declares_again() -> File {
    let set = if_else(op(EQ, var(0), int(0)), assign(1, boolean(true)), nop());
    let turn = seq(decl(1, BOOL, set), assign(0, op(ADD, var(0), int(1))));
    let twice = seq(while_do(op(LT, var(0), int(2)), turn), ret(var(0)));
    main(2, decl(0, INT, seq(assign(0, int(0)), twice)))
}

/// `while(true, nop)` before a return that is never reached.
pub fn turns() -> File {
    main(0, seq(while_do(boolean(true), nop()), ret(int(0))))
}

/// So many seqs nested in the first place.
fn nested_seqs(count: usize) -> File {
    let left = (0..count - 1).fold(nop(), |s, _| seq(s, nop()));
    main(0, seq(left, ret(int(0))))
}

/// `if(c && 1/0 == 0, return 1, return 2)`.
fn guarded(c: bool) -> File {
    let right = op(EQ, op(DIV, int(1), int(0)), int(0));
    main(0, if_else(and(boolean(c), right), ret(int(1)), ret(int(2))))
}

/// Eight constant arguments, of which the last is taken from the first.
fn eight() -> File {
    let arguments = (1..=8).map(int).collect();
    let body = ret(op(SUB, var(0), var(7)));
    file(&[function(INT, 0, ret(call(1, arguments))), taking(INT, 8, 0, 8, body)])
}

/// A parameter is assigned.
fn assigned_parameter() -> File {
    let body = seq(assign(0, op(ADD, var(0), int(1))), ret(var(0)));
    file(&[function(INT, 0, ret(call(1, vec![int(4)]))), taking(INT, 1, 0, 1, body)])
}

/// A call of a function of nothing as a statement.
fn procedure() -> File {
    let body = seq(discard(call(1, vec![])), ret(int(7)));
    file(&[function(INT, 0, body), function(NOTHING, 0, ret(nothing()))])
}

/// `if(a ⊙ b, return 1, return 2)`, which takes nine steps.
fn compared(name: &str, o: u8, a: i32, b: i32, holds: bool) -> Row {
    let body = if_else(op(o, int(a), int(b)), ret(int(1)), ret(int(2)));
    row(name, main(0, body), Value(if holds { 1 } else { 2 }), 9)
}

/// Comparisons of ints, which are signed.
fn comparisons() -> Vec<Row> {
    vec![
        compared("2^31−1 < −2^31", LT, i32::MAX, i32::MIN, false),
        compared("−1 < 0", LT, -1, 0, true),
        compared("−1 <= −1", LE, -1, -1, true),
        compared("0 <= −1", LE, 0, -1, false),
        compared("0 > −1", GT, 0, -1, true),
        compared("−2^31 > 2^31−1", GT, i32::MIN, i32::MAX, false),
        compared("−1 >= 0", GE, -1, 0, false),
        compared("−2^31 >= −2^31", GE, i32::MIN, i32::MIN, true),
        compared("−1 == −1", EQ, -1, -1, true),
        compared("−1 == 2^31−1", EQ, -1, i32::MAX, false),
        compared("0 != −2^31", NE, 0, i32::MIN, true),
        compared("7 != 7", NE, 7, 7, false),
    ]
}

/// All rows that run: the paper's and more of edition 0, the same in edition 1, and those in which the editions may differ.
pub fn rows() -> Vec<Row> {
    let own = [table(), others(), comparisons(), early_returns()];
    let own: Vec<Row> = own.into_iter().flatten().collect();
    let again = editions::again(&own);
    own.into_iter().chain(again).chain(editions::rows()).collect()
}

/// Operators at their limits, and runs of every kind.
fn others() -> Vec<Row> {
    vec![
        operator("return 65536×65536", MUL, 65_536, 65_536, 0),
        operator("return (2^31−1)×(2^31−1)", MUL, i32::MAX, i32::MAX, 1),
        operator("return −2^31×−1", MUL, i32::MIN, -1, i32::MIN),
        operator("return −2^31−1", SUB, i32::MIN, 1, i32::MAX),
        operator("return 7/−2", DIV, 7, -2, -3),
        operator("return 7%−2", REM, 7, -2, 1),
        operator("return 5%−1", REM, 5, -1, 0),
        operator("return −7%−2", REM, -7, -2, -1),
        operator("return −2^31/1", DIV, i32::MIN, 1, i32::MIN),
        operator("return 0−−2^31", SUB, 0, i32::MIN, i32::MIN),
        operator("return −1^(2^31−1)", XOR, -1, i32::MAX, i32::MIN),
        row("return −2^31/−1", main(0, ret(op(DIV, int(i32::MIN), int(-1)))), Arith, 5),
        row("a loop that declares again", declares_again(), Value(2), 69),
        row("512 seqs nested left", nested_seqs(512), Value(0), 1_028),
        row("513 seqs nested left", nested_seqs(513), Full, 513),
        row("4,090 calls nested", shapes::calls(4096), Full, 513),
        row("false && 1/0 == 0", guarded(false), Value(2), 8),
        row("true && 1/0 == 0", guarded(true), Arith, 8),
        row("eight arguments", eight(), Value(-7), 20),
        row("an assigned parameter", assigned_parameter(), Value(5), 17),
        row("main calls main", main(0, ret(call(0, vec![]))), Full, 28),
        row("code after a return", main(0, seq(ret(int(1)), nop())), Value(1), 5),
        row("a procedure", procedure(), Value(7), 11),
        allowed("return 0 in 0", main(0, ret(int(0))), 0, (Spent, 0)),
        allowed("return 0 in 4", main(0, ret(int(0))), 4, (Value(0), 4)),
        allowed("return f() in 27", calls_itself(), 27, (Spent, 27)),
        allowed("return f() in 28", calls_itself(), 28, (Spent, 28)),
        allowed("return f() in 29", calls_itself(), 29, (Full, 28)),
        allowed("return f() without end", calls_itself(), u64::MAX, (Full, 28)),
        row("return f(11), f counts down", counts_down(11), Value(0), 168),
        row("return f(12), f counts down", counts_down(12), Value(0), 182),
        row("return f(13), f counts down", counts_down(13), Full, 172),
        row("return f(30), f counts down", counts_down(30), Full, 172),
        allowed("while(true, nop) in 5,002", turns(), 5_002, (Spent, 5_002)),
    ]
}
