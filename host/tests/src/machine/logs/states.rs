//! The state whose one step changes the most words that are known to change at once.

use generators::tree::*;
use generators::File;
use reference::machine::{Activation, Control, Frame, Ref, Running, State, Value};

/// The callers and the frames that the limits allow.
const CALLERS: usize = 14;
const FRAMES: usize = 512;

/// The int that fills every place: none of its bytes is zero.
const FILL: i32 = -2;

/// The words that the step changes: of the head 4, of the activations 14 × 130 and 13 numbers of functions, of frames 497 × 17, 14 × 3 and 5.
pub const CHANGED: usize = 4 + 14 * 130 + 13 + 497 * 17 + 14 * 3 + 5;

/// A body of decls from a variable up to the last of 64, over `return` at node 1.
fn declared(first: u32, inner: Stmt) -> Stmt {
    (first..64).rev().fold(inner, |s, x| decl(x, INT, s))
}

/// Main, a function of eight ints that gives an int, both of 64 variables, and one of eight ints that gives a bool.
pub fn file_of_fullest() -> File {
    file(&[
        function(INT, 64, declared(0, ret(int(1)))),
        taking(INT, 8, 0, 64, declared(8, ret(int(1)))),
        taking(BOOL, 8, 0, 8, ret(boolean(true))),
    ])
}

/// A call with seven arguments done, which wants the eighth.
fn call_of(callee: usize) -> Frame {
    Frame::Call { callee, done: vec![Value::Int(FILL); 7], rest: vec![] }
}

/// All callers, variables and frames, the frames with as many operands as they hold, and a division without a result at hand.
pub fn fullest() -> State {
    let (each, more) = (FRAMES / CALLERS, FRAMES % CALLERS);
    let activations = (0..CALLERS).map(|number| {
        let last = number + 1 == CALLERS;
        let mut frames = vec![Frame::If(Ref::Node(1), Ref::Node(1)), call_of(2)];
        frames.resize(if last { each + more } else { each }, call_of(1));
        if last {
            frames.pop();
            frames.push(Frame::Second { op: DIV, left: i32::MIN });
        }
        Activation { function: number.min(1), vars: vec![Value::Int(FILL); 64], frames }
    });
    let control = Control::Value(Value::Int(-1));
    State::Running(Running { control, activations: activations.collect() })
}
