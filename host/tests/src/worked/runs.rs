//! The rows of the paper's table of runs.

use crate::case::Group;
use generators::tree::*;

/// The rows, accepted and refused.
pub fn group() -> Group {
    let mut g = Group::new("table of runs");
    let sum = op(ADD, op(MUL, op(ADD, int(4), int(5)), int(10)), int(2));
    g.accepted("return 0", main(0, ret(int(0))));
    g.accepted("return ((4+5)×10)+2", main(0, ret(sum)));
    g.accepted("return 1/0", main(0, ret(op(DIV, int(1), int(0)))));
    g.accepted("return −2^31 % −1", main(0, ret(op(REM, int(i32::MIN), int(-1)))));
    g.accepted("return 2147483647+1", main(0, ret(op(ADD, int(i32::MAX), int(1)))));
    g.accepted("return −7/2", main(0, ret(op(DIV, int(-7), int(2)))));
    g.accepted("return −7%2", main(0, ret(op(REM, int(-7), int(2)))));
    g.accepted("return 1<<33", main(0, ret(op(SHL, int(1), int(33)))));
    g.accepted("return −1>>1", main(0, ret(op(SHR, int(-1), int(1)))));
    let abort = seq(assert_that(boolean(false)), ret(int(0)));
    g.accepted("seq(assert false, return 0)", main(0, abort));
    let f = || function(INT, 0, ret(call(1, vec![])));
    g.accepted("return f(), f: return f()", file(&[f(), f()]));
    g.refused("nop", main(0, nop()), 14, 1);
    g.refused("decl(0, int, return var 0)", main(1, decl(0, INT, ret(var(0)))), 13, 2);
    let one_side = if_else(boolean(true), ret(int(1)), assign(0, int(2)));
    let both = decl(0, INT, seq(one_side, ret(var(0))));
    g.accepted("decl(0, int, seq(if(..), return var 0))", main(1, both));
    let turn = while_do(boolean(true), nop());
    g.accepted("while(true, nop) before a return", main(0, seq(turn.clone(), ret(int(0)))));
    g.refused("while(true, nop) alone", main(0, turn), 14, 1);
    g
}
