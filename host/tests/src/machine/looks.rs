//! Look-ups after every step.

use super::trial::{Model, Trial};
use super::{worked, Entries};
use crate::report::Outcome;
use generators::lively;
use generators::rng::Rng;
use generators::tree::*;
use generators::File;
use reference::machine::{Outcome as End, State};

/// The longest run that is looked into.
const LONGEST: usize = 250;

/// Calls with and without arguments under a loop with a decl, and recursion with an end.
fn calls_and_loops() -> File {
    let down = call(1, vec![op(SUB, var(0), int(1)), boolean(true)]);
    let more = decl(2, INT, seq(assign(2, down), ret(op(ADD, var(2), var(0)))));
    let f1 = taking(INT, 2, 2, 3, if_else(op(LT, var(0), int(1)), ret(int(0)), more));
    let inner = seq(assign(1, call(1, vec![var(0), boolean(false)])), discard(call(2, vec![])));
    let turn = seq(decl(1, INT, inner), assign(0, op(ADD, var(0), int(1))));
    let body = seq(while_do(op(LT, var(0), int(3)), turn), ret(var(0)));
    let f0 = function(INT, 2, decl(0, INT, seq(assign(0, int(0)), body)));
    file(&[f0, f1, function(NOTHING, 0, ret(nothing()))])
}

/// Worked programs and so many random ones.
pub fn outcome(side: &Entries, programs: u64) -> Outcome {
    let mut outcome = Outcome::default();
    let made = [calls_and_loops(), worked::declares_again(), worked::calls_itself()];
    for (i, file) in made.iter().enumerate() {
        outcome.add(looks(side, &Model::new(file), format!("worked {i}")));
    }
    for row in worked::table() {
        outcome.add(looks(side, &Model::new(&row.file), row.name));
    }
    for seed in 0..programs {
        let model = Model::new(&lively::draw(&mut Rng::new(2_000_000 + seed)));
        outcome.add(looks(side, &model, format!("program {seed}")));
    }
    outcome
}

/// The variables of the state, the first two after them, and the greatest number.
fn asked(model: &Model, state: &State) -> Vec<u32> {
    let count = match state {
        State::Running(running) => {
            let current = running.activations.last().map_or(0, |a| a.function);
            model.judge.program.functions[current].vars.len() as u32
        }
        _ => 1,
    };
    (0..count.min(6)).chain([count.saturating_sub(1), count, count + 1, u32::MAX]).collect()
}

/// One program step by step.
fn looks(side: &Entries, model: &Model, label: String) -> Outcome {
    let mut trial = Trial::started(side, model, label);
    for _ in 0..LONGEST {
        for variable in asked(model, &trial.state) {
            trial.look_up(variable);
        }
        if trial.run(1).0 != End::Spent {
            break;
        }
    }
    for variable in asked(model, &trial.state) {
        trial.look_up(variable);
    }
    trial.outcome
}
