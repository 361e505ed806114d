//! The rows of the paper's table through the entry points.

use super::trial::{Model, Trial, CALLS};
use super::{worked, Entries};
use crate::report::Outcome;
use crate::used;
use reference::image::{encode_into, WORDS};
use reference::machine::{Outcome as End, State};

/// Every row: the refused ones, and the others with their outcomes, each run twice.
pub fn outcome(side: &Entries) -> Outcome {
    let mut outcome = Outcome::default();
    for row in worked::rows() {
        let model = Model::new(&row.file);
        let mut trial = Trial::started(side, &model, row.name.clone());
        trial.memory_check();
        let (end, steps) = trial.run(row.allowance);
        trial.outcome.same(|| row.name.clone(), &model.file, row.expected, (end, steps));
        trial.memory_check();
        trial.look_up(0);
        if end != End::Spent {
            let got = trial.run(row.allowance);
            let again = || format!("{} again", row.name);
            trial.outcome.same(again, &model.file, (row.expected.0, 0), got);
        }
        trial.run(0);
        outcome.add(trial.outcome);
    }
    outcome.add(refused(side));
    outcome
}

/// The rows that the check refuses, by every entry point and without a change of memory.
fn refused(side: &Entries) -> Outcome {
    let model = Model::new(&worked::table()[0].file);
    let mut trial = Trial::started(side, &model, "refused rows".to_string());
    trial.run(2);
    for (file, refusal) in worked::refused() {
        let file = file.bytes();
        let got = (side.memory_check)(&file, &trial.memory);
        trial.outcome.compare(|| "a refused row".to_string(), &file, Some(refusal), got);
        for words in [0, WORDS - 1, WORDS, WORDS + 100] {
            for call in 0..CALLS {
                trial.refused(&file, words, call);
            }
        }
    }
    trial.outcome
}

/// Memories shorter than an image give 15 whatever they hold; at their full length they are accepted.
pub fn short(side: &Entries) -> Outcome {
    let model = Model::new(&worked::table()[1].file);
    let mut outcome = Outcome::default();
    for steps in [0, 1, 5, 12, 13] {
        let (state, _, _) = model.after(steps);
        let mut trial = Trial::new(side, &model, format!("after {steps} steps"), state);
        for words in [0, 1, 4_480, WORDS - 1] {
            for call in 0..CALLS {
                trial.refused(&model.file, words, call);
            }
        }
        trial.memory_check();
        outcome.add(trial.outcome);
    }
    outcome.add(exact(side, &model));
    outcome
}

/// A memory of exactly 16,384 words, and memories without an image.
fn exact(side: &Entries, model: &Model) -> Outcome {
    let mut outcome = Outcome::default();
    let mut memory = used(WORDS);
    encode_into(&State::Main, &mut memory);
    let got = (side.run)(&model.file, &mut memory, 1_000);
    outcome.same(|| "16,384 words".to_string(), &model.file, Ok((End::Value(92), 13)), got);
    for mut memory in [vec![0; WORDS], used(WORDS), vec![u32::MAX; WORDS]] {
        let before = memory.clone();
        let checked = (side.memory_check)(&model.file, &memory);
        let run = (side.run)(&model.file, &mut memory, 5).err();
        let looked = (side.look_up)(&model.file, &memory, u32::MAX).err();
        let logged = (side.run_logged)(&model.file, &mut memory, 5, &mut [0; 99], 0).err();
        let back = (side.step_back)(&model.file, &mut memory, &[], u64::MAX).err();
        for got in [checked, run, looked, logged, back] {
            outcome.compare(|| "no image".to_string(), &model.file, Some((16, 0, 0)), got);
        }
        outcome.words(|| "no image, memory".to_string(), &model.file, &before, &memory);
    }
    outcome
}
