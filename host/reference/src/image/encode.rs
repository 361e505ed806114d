//! From a state to its words.

use super::{ACTIVATION, ACTIVATIONS, ACTIVATION_HEAD, FRAME, FRAMES, FRAME_HEAD, WORDS};
use crate::machine::state::{Activation, Control, Frame, Ref, Running, State, Value};

/// The image of a state within the limits.
pub fn encode(state: &State) -> Box<[u32; WORDS]> {
    let mut words = Box::new([0; WORDS]);
    encode_into(state, &mut words[..]);
    words
}

/// Writes the image over the first 16,384 words.
pub fn encode_into(state: &State, words: &mut [u32]) {
    words[..WORDS].fill(0);
    match state {
        State::Main => words[0] = 1,
        State::Running(running) => {
            words[0] = 2;
            write_running(running, words);
        }
        State::Returned(c) => words[..2].copy_from_slice(&[3, *c as u32]),
        State::Value(c) => words[..2].copy_from_slice(&[4, *c as u32]),
        State::Arith => words[0] = 5,
        State::Abort => words[0] = 6,
    }
}

/// Writes the control, the activations and the frames.
fn write_running(running: &Running, words: &mut [u32]) {
    words[2] = running.activations.len() as u32;
    words[3..5].copy_from_slice(&control(running.control));
    let mut frame = 0;
    for (i, activation) in running.activations.iter().enumerate() {
        write_activation(activation, &mut words[ACTIVATIONS + i * ACTIVATION..][..ACTIVATION]);
        for own in &activation.frames {
            write_frame(own, &mut words[FRAMES + frame * FRAME..][..FRAME]);
            frame += 1;
        }
    }
}

/// The form and the word of a control.
fn control(control: Control) -> [u32; 2] {
    match control {
        Control::Value(v) => {
            let [ty, word] = value(v);
            [1 + ty, word]
        }
        Control::Expr(node) => [4, node],
        Control::Stmt(s) => [5, reference(s)],
    }
}

/// The type and the word of a value.
fn value(value: Value) -> [u32; 2] {
    match value {
        Value::Nothing => [0, 0],
        Value::Int(c) => [1, c as u32],
        Value::Bool(b) => [2, u32::from(b)],
    }
}

/// The word of a statement's reference.
fn reference(reference: Ref) -> u32 {
    match reference {
        Ref::Nop => 0,
        Ref::Node(n) => 1 + 3 * n,
        Ref::IfOf(n) => 2 + 3 * n,
        Ref::SeqOf(n) => 3 + 3 * n,
    }
}

/// Writes an activation's words, which are zero before.
fn write_activation(activation: &Activation, words: &mut [u32]) {
    let Activation { function, vars, frames } = activation;
    words[..3].copy_from_slice(&[*function as u32, frames.len() as u32, vars.len() as u32]);
    write_pairs(vars.iter().map(|&v| value(v)), &mut words[ACTIVATION_HEAD..]);
}

/// Writes pairs one after another.
fn write_pairs(pairs: impl Iterator<Item = [u32; 2]>, words: &mut [u32]) {
    for (i, pair) in pairs.enumerate() {
        words[2 * i..2 * i + 2].copy_from_slice(&pair);
    }
}

/// Writes a frame's words, which are zero before.
fn write_frame(frame: &Frame, words: &mut [u32]) {
    let head = match frame {
        Frame::First { op, right } => {
            words[FRAME_HEAD] = *right;
            [1, u32::from(*op), 0, 1]
        }
        Frame::Second { op, left } => {
            words[FRAME_HEAD..FRAME_HEAD + 2].copy_from_slice(&value(Value::Int(*left)));
            [1, u32::from(*op), 1, 0]
        }
        Frame::Call { callee, done, rest } => {
            let nodes = rest.iter().map(|&node| [node, 0]);
            let slots = done.iter().map(|&v| value(v)).chain(nodes);
            write_pairs(slots, &mut words[FRAME_HEAD..]);
            [2, *callee as u32, done.len() as u32, rest.len() as u32]
        }
        Frame::And(node) => [3, *node, 0, 0],
        Frame::Stmt(s) => [4, reference(*s), 0, 0],
        Frame::Assign(x) => [5, *x, 0, 0],
        Frame::If(s, t) => [6, reference(*s), reference(*t), 0],
        Frame::Return => [7, 0, 0, 0],
        Frame::Assert => [8, 0, 0, 0],
        Frame::Discard => [9, 0, 0, 0],
    };
    words[..FRAME_HEAD].copy_from_slice(&head);
}
