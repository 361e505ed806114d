//! Fit states step to fit states and read no empty variable.

use super::states::States;
use super::trial::Model;
use crate::report::Outcome;
use generators::lively;
use generators::rng::Rng;
use reference::machine::run::{attempt, Attempt};
use reference::machine::{Control, Rule, State, Value};

/// The steps that are followed from each state.
const STEPS: usize = 60;

/// Random fit states of so many programs.
pub fn outcome(programs: u64) -> Outcome {
    let mut outcome = Outcome::default();
    for seed in 0..programs {
        let mut rng = Rng::new(6_000_000 + seed);
        let model = Model::new(&lively::draw(&mut rng));
        let states = States::new(&model.judge.program);
        for _ in 0..10 {
            let state = states.draw(&mut rng);
            if model.judge.is_fit(&state) {
                let wrong = followed(&model, state);
                let name = || format!("seed {seed}");
                outcome.same(name, &model.file, None, wrong);
            }
        }
    }
    outcome
}

/// What goes wrong within some steps of a fit state, if anything does.
fn followed(model: &Model, mut state: State) -> Option<&'static str> {
    for _ in 0..STEPS {
        if state.end().is_some() {
            return None;
        }
        match attempt(&model.judge.program, &mut state) {
            Attempt::Full => return None,
            Attempt::Stuck => return Some("no rule applies"),
            Attempt::Stepped(Rule::Var) if is_empty(&state) => return Some("an empty read"),
            Attempt::Stepped(_) if !model.judge.is_fit(&state) => return Some("unfit"),
            Attempt::Stepped(_) => {}
        }
    }
    None
}

/// Whether the value at hand is nothing.
fn is_empty(state: &State) -> bool {
    matches!(state, State::Running(r) if r.control == Control::Value(Value::Nothing))
}
