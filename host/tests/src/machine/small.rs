//! The reference's own runs, state by state.

use super::trial::Model;
use super::worked;
use crate::report::Outcome;
use reference::machine::{Control, Frame, Ref, State, Value};

/// The rows of the tables on states alone, and the turns of `while(true, nop)`.
pub fn outcome() -> Outcome {
    let mut outcome = Outcome::default();
    for row in worked::rows() {
        let model = Model::new(&row.file);
        let (_, end, steps) = model.after(row.allowance);
        outcome.same(|| row.name.clone(), &model.file, row.expected, (end, steps));
    }
    outcome.add(five_steps());
    outcome.add(stale());
    outcome
}

/// Each turn of `while(true, nop)` takes five steps through five states.
fn five_steps() -> Outcome {
    let mut outcome = Outcome::default();
    let model = Model::new(&worked::turns());
    let waiting = |more: &[Frame]| [&[Frame::Stmt(Ref::Node(4))], more].concat();
    let turn = [
        (Control::Stmt(Ref::Node(2)), waiting(&[])),
        (Control::Stmt(Ref::IfOf(2)), waiting(&[])),
        (Control::Value(Value::Bool(true)), waiting(&[Frame::If(Ref::SeqOf(2), Ref::Nop)])),
        (Control::Stmt(Ref::SeqOf(2)), waiting(&[])),
        (Control::Stmt(Ref::Nop), waiting(&[Frame::Stmt(Ref::Node(2))])),
    ];
    for step in 0..1_000 {
        let (control, frames) = turn[step % 5].clone();
        let (State::Running(got), _, _) = model.after(2 + step as u64) else { continue };
        let name = || format!("while(true, nop) after {} steps", 2 + step);
        let got = (got.control, got.activations[0].frames.clone());
        outcome.same(name, &model.file, (control, frames), got);
    }
    outcome
}

/// A variable keeps its value after its decl's statement, until the decl runs again.
fn stale() -> Outcome {
    let mut outcome = Outcome::default();
    let model = Model::new(&worked::declares_again());
    let shown = [(25, true), (42, true), (43, false), (44, false)];
    for (steps, held) in shown {
        let (state, _, _) = model.after(steps);
        let expected = Some(if held { Value::Bool(true) } else { Value::Nothing });
        let got = reference::machine::look_up(&state, 1);
        outcome.same(|| format!("x1 after {steps} steps"), &model.file, expected, got);
    }
    outcome
}
