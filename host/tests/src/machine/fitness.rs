//! States judged by hand, most of them reached by no run.

use super::trial::{Model, Trial};
use super::Entries;
use crate::report::Outcome;
use generators::tree::*;
use generators::File;
use reference::image::{encode_into, MOST_ACTIVATIONS, MOST_FRAMES, WORDS};
use reference::machine::{Activation, Control, Frame, Ref, Running, State, Value};

mod early;
pub(super) mod sample;

/// A state with what the fit paragraph says of it.
pub struct Case {
    pub name: &'static str,
    pub state: State,
    pub fit: bool,
}

/// A state of one activation of main and then of others over it.
fn over(control: Control, activations: Vec<Activation>) -> State {
    State::Running(Running { control, activations })
}

/// An activation; frames from the top down, as the papers write them.
fn act(function: usize, vars: &[Value], frames: &[Frame]) -> Activation {
    let frames = frames.iter().rev().cloned().collect();
    Activation { function, vars: vars.to_vec(), frames }
}

/// The file that the cases are about.
pub(super) fn sample_file() -> File {
    use sample::{f0, f1, f2, f3, f4, f5};
    file(&[f0(), f1(), f2(), f3(), f4(), f5(), early::f6()])
}

/// The reference's verdicts on the states themselves, and its run of the file.
pub fn judged() -> Outcome {
    let model = Model::new(&sample_file());
    let mut outcome = Outcome::default();
    for case in sample::cases() {
        let got = model.judge.is_fit(&case.state);
        outcome.same(|| case.name.to_string(), &model.file, case.fit, got);
    }
    let (_, end, steps) = model.after(10_000);
    let expected = (reference::machine::Outcome::Value(3), 56);
    outcome.same(|| "the sample's run".to_string(), &model.file, expected, (end, steps));
    outcome
}

/// The verdicts of a side's entry points on the images.
pub fn outcome(side: &Entries) -> Outcome {
    let model = Model::new(&sample_file());
    let mut outcome = Outcome::default();
    for case in sample::cases() {
        if case.fit {
            let mut trial = Trial::new(side, &model, case.name.to_string(), case.state);
            trial.memory_check();
            for x in 0..3 {
                trial.look_up(x);
            }
            for _ in 0..40 {
                trial.run(1);
            }
            trial.memory_check();
            outcome.add(trial.outcome);
        } else if has_room(&case.state) {
            outcome.add(refused(side, &model, case.name, memory_of(&case.state)));
        }
    }
    // A count that says more activations than there are is unfit where it is past the limit, whatever stands in their places.
    for count in (15..=33).chain([u32::MAX]) {
        let mut memory = memory_of(&sample::tower(14, 0));
        memory[2] = count;
        outcome.add(refused(side, &model, "14 activations with another count", memory));
    }
    outcome
}

/// Whether an image has places for the activations and the frames of a state.
fn has_room(state: &State) -> bool {
    let State::Running(running) = state else { return true };
    running.activations.len() <= MOST_ACTIVATIONS && running.frames() <= MOST_FRAMES
}

/// A memory with the image of a state and three words more.
fn memory_of(state: &State) -> Vec<u32> {
    let mut memory = vec![7; WORDS + 3];
    encode_into(state, &mut memory);
    memory
}

/// An unfit memory gives 16 and stays as it is.
fn refused(side: &Entries, model: &Model, name: &str, mut memory: Vec<u32>) -> Outcome {
    let mut outcome = Outcome::default();
    let before = memory.clone();
    let run = (side.run)(&model.file, &mut memory, 5).err();
    let checked = (side.memory_check)(&model.file, &memory);
    let looked = (side.look_up)(&model.file, &memory, 0).err();
    for got in [checked, run, looked] {
        outcome.compare(|| name.to_string(), &model.file, Some((16, 0, 0)), got);
    }
    outcome.words(|| name.to_string(), &model.file, &before, &memory);
    outcome
}
