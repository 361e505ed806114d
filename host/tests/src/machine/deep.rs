//! The deepest trees on a small stack.

use super::trial::{Model, Trial, CALLS};
use super::Entries;
use crate::report::Outcome;
use generators::shapes;
use generators::tree::*;
use reference::image::WORDS;

/// The stack that the entry points get.
const SMALL_STACK: usize = 1 << 20;

/// Every regular shape at the greatest size: run, checked and looked into; and the deepest statements, which are refused.
pub fn outcome(side: &Entries) -> Outcome {
    let made: Vec<(&str, Model)> =
        shapes::ALL.iter().map(|(name, shape)| (*name, Model::new(&shape(4096)))).collect();
    std::thread::scope(|scope| {
        let thread = std::thread::Builder::new().stack_size(SMALL_STACK);
        match thread.spawn_scoped(scope, || calls(side, &made)).map(|t| t.join()) {
            Ok(Ok(outcome)) => outcome,
            _ => Outcome { failed: made.len(), ..Outcome::default() },
        }
    })
}

/// The calls on each file.
fn calls(side: &Entries, made: &[(&str, Model)]) -> Outcome {
    let mut outcome = Outcome::default();
    for (name, model) in made {
        let mut trial = Trial::started(side, model, name.to_string());
        for allowance in [1, 2, 300, 211, 1, 5_000] {
            trial.run(allowance);
            trial.memory_check();
            trial.look_up(0);
        }
        outcome.add(trial.outcome);
    }
    outcome.add(refused(side, &made[0].1));
    outcome
}

/// The deepest statements in files that questions 13 and 14 refuse, by every entry point, on a memory of another file.
fn refused(side: &Entries, model: &Model) -> Outcome {
    let mut trial = Trial::started(side, model, "deepest statements".to_string());
    for inner in [ret(var(0)), discard(int(0))] {
        let file = shapes::deepest(inner, |s| seq(s, nop())).bytes();
        for call in 0..CALLS {
            trial.refused(&file, WORDS, call);
        }
    }
    trial.outcome
}
