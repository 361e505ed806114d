//! From words to the state that they might be the image of.

use super::{
    ACTIVATION, ACTIVATIONS, ACTIVATION_HEAD, FRAME, FRAMES, FRAME_HEAD, MOST_ACTIVATIONS,
    MOST_FRAMES, MOST_SLOTS, MOST_VARIABLES,
};
use crate::machine::state::{Activation, Control, Frame, Ref, Running, State, Value};

/// The only state whose image the first 16,384 words can be; words that the state does not use are not looked at.
pub fn decode(words: &[u32]) -> Option<State> {
    match words[0] {
        1 => Some(State::Main),
        2 => running(words).map(State::Running),
        3 => Some(State::Returned(words[1] as i32)),
        4 => Some(State::Value(words[1] as i32)),
        5 => Some(State::Arith),
        6 => Some(State::Abort),
        _ => None,
    }
}

/// A number that is at most so many.
fn at_most(number: u32, most: usize) -> Option<usize> {
    usize::try_from(number).ok().filter(|&n| n <= most)
}

/// A running state.
fn running(words: &[u32]) -> Option<Running> {
    let count = at_most(words[2], MOST_ACTIVATIONS)?;
    let control = control(words[3], words[4])?;
    let mut frames = words[FRAMES..].chunks_exact(FRAME).take(MOST_FRAMES);
    let mut activations = Vec::with_capacity(count);
    for own in words[ACTIVATIONS..].chunks_exact(ACTIVATION).take(count) {
        let frame_count = at_most(own[1], frames.len())?;
        let vars = values(&own[ACTIVATION_HEAD..], at_most(own[2], MOST_VARIABLES)?)?;
        let frames =
            frames.by_ref().take(frame_count).map(frame).collect::<Option<Vec<Frame>>>()?;
        activations.push(Activation { function: own[0] as usize, vars, frames });
    }
    Some(Running { control, activations })
}

/// A control by its form and its word.
fn control(form: u32, word: u32) -> Option<Control> {
    match form {
        1..=3 => value(form - 1, word).map(Control::Value),
        4 => Some(Control::Expr(word)),
        5 => Some(Control::Stmt(reference(word))),
        _ => None,
    }
}

/// A value by its type and its word.
fn value(ty: u32, word: u32) -> Option<Value> {
    match (ty, word) {
        (0, 0) => Some(Value::Nothing),
        (1, c) => Some(Value::Int(c as i32)),
        (2, 0) => Some(Value::Bool(false)),
        (2, 1) => Some(Value::Bool(true)),
        _ => None,
    }
}

/// So many values of two words each.
fn values(words: &[u32], count: usize) -> Option<Vec<Value>> {
    words.chunks_exact(2).take(count).map(|pair| value(pair[0], pair[1])).collect()
}

/// A statement's reference by its word.
fn reference(word: u32) -> Ref {
    match (word.wrapping_sub(1) / 3, word.wrapping_sub(1) % 3) {
        _ if word == 0 => Ref::Nop,
        (node, 0) => Ref::Node(node),
        (node, 1) => Ref::IfOf(node),
        (node, _) => Ref::SeqOf(node),
    }
}

/// A frame by its words.
fn frame(words: &[u32]) -> Option<Frame> {
    let [kind, x, y, z] = [words[0], words[1], words[2], words[3]];
    let slots = &words[FRAME_HEAD..];
    match kind {
        1 => operands(u8::try_from(x).ok()?, y, z, slots),
        2 => {
            let (done, rest) = (at_most(y, MOST_SLOTS)?, at_most(z, MOST_SLOTS)?);
            at_most((done + rest) as u32, MOST_SLOTS)?;
            let nodes = slots[2 * done..].chunks_exact(2).take(rest).map(|pair| pair[0]);
            let (callee, rest) = (x as usize, nodes.collect());
            Some(Frame::Call { callee, done: values(slots, done)?, rest })
        }
        3 => Some(Frame::And(x)),
        4 => Some(Frame::Stmt(reference(x))),
        5 => Some(Frame::Assign(x)),
        6 => Some(Frame::If(reference(x), reference(y))),
        7 => Some(Frame::Return),
        8 => Some(Frame::Assert),
        9 => Some(Frame::Discard),
        _ => None,
    }
}

/// An operator's frame, which has one value or one node.
fn operands(op: u8, done: u32, rest: u32, slots: &[u32]) -> Option<Frame> {
    match (done, rest, value(slots[0], slots[1])) {
        (0, 1, _) => Some(Frame::First { op, right: slots[0] }),
        (1, 0, Some(Value::Int(left))) => Some(Frame::Second { op, left }),
        _ => None,
    }
}
