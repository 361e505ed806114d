//! Random lists of calls on one memory, refused ones among them.

use super::logs;
use super::states::States;
use super::trial::{self, Model, Trial};
use super::Entries;
use crate::report::Outcome;
use crate::Answer;
use generators::rng::Rng;
use generators::{aimed, lively, noise, File};
use reference::image::WORDS;
use reference::machine::State;

/// The calls of a list.
const CALLS: usize = 40;

/// The accepted calls, and the refused ones by their question.
#[derive(Default)]
struct Tally {
    accepted: usize,
    refused: [usize; 19],
    /// The accepted steps back.
    back: usize,
}

/// So many lists, in which every question must have refused a call.
pub fn outcome(side: &Entries, lists: u64) -> Outcome {
    let mut outcome = Outcome::default();
    let mut tally = Tally::default();
    for seed in 0..lists {
        outcome.add(tally.list(side, seed));
    }
    let Tally { accepted, refused, back } = tally;
    let told: Vec<String> = (1..19).map(|q| format!("{q}: {}", refused[q])).collect();
    println!("  {accepted} calls accepted, refused by {}", told.join(", "));
    println!("  {back} steps back accepted");
    let seen = refused[1..].iter().all(|&count| count > 0) && back > 0;
    outcome.same(|| "every question refused a call".to_string(), &[], true, seen);
    outcome
}

impl Tally {
    /// One list: from a start, from memory that a run left, or from a random fit state.
    fn list(&mut self, side: &Entries, seed: u64) -> Outcome {
        let mut rng = Rng::new(5_000_000 + seed);
        let file = lively::draw(&mut rng);
        let model = Model::new(&file);
        let label = format!("list {seed}");
        let mut trial = match rng.below(3) {
            0 => Trial::started(side, &model, label),
            1 => {
                let (state, _, _) = model.after(rng.below(500) as u64);
                Trial::new(side, &model, label, state)
            }
            _ => Trial::new(side, &model, label, fit_state(&model, &mut rng)),
        };
        logs::lend(&mut trial, &mut rng);
        for _ in 0..CALLS {
            let answer = self.call(&mut trial, &file, &mut rng);
            match answer {
                None => self.accepted += 1,
                Some((question, _, _)) => self.refused[usize::from(question)] += 1,
            }
        }
        trial.outcome
    }

    /// One call of any form, accepted or refused, and what it must answer.
    fn call(&mut self, trial: &mut Trial, file: &File, rng: &mut Rng) -> Answer {
        match rng.below(27) {
            0 => trial.start(),
            1..=7 => {
                trial.run(allowance(rng));
            }
            8..=10 => trial.memory_check(),
            11..=14 => return trial.look_up(variable(rng)),
            15 | 16 => {
                let (words, form) = (rng.below(WORDS), rng.below(trial::CALLS));
                return trial.refused(&trial.model.file, words, form);
            }
            17 => {
                // Start is left out: with another file that is accepted it would be no refused call.
                let other = lively::draw(rng).bytes();
                return trial.elsewhere(&other, rng.between(1, trial::CALLS - 1));
            }
            18..=20 => {
                trial.run_logged(rng.below(30) as u64);
                // Some steps back at once, since few other calls leave a state that the log leads back from.
                for _ in 0..rng.below(4) {
                    self.step_back(trial);
                }
            }
            21..=23 => return self.step_back(trial),
            24 => {
                logs::disturb(trial, rng);
                return self.step_back(trial);
            }
            _ => return spoilt(trial, file, rng),
        }
        None
    }

    /// One step back, which is counted where it is accepted.
    fn step_back(&mut self, trial: &mut Trial) -> Answer {
        let answer = trial.step_back();
        self.back += usize::from(answer.is_none());
        answer
    }
}

/// A call with a spoilt file, or a memory check where the file is still accepted.
fn spoilt(trial: &mut Trial, file: &File, rng: &mut Rng) -> Answer {
    let spoilt = match rng.below(6) {
        0..=3 => aimed::spoil(1 + rng.below(14) as u8, file, rng),
        4 => noise::bytes(trial.model.file.clone(), rng),
        _ => noise::length(trial.model.file.clone(), rng),
    };
    if reference::check(&spoilt).is_some() {
        let words = if rng.one_in(3) { rng.below(WORDS) } else { WORDS + 100 };
        return trial.refused(&spoilt, words, rng.below(trial::CALLS));
    }
    trial.memory_check();
    None
}

/// A random fit state of a program, or main() where none was drawn.
pub fn fit_state(model: &Model, rng: &mut Rng) -> State {
    let states = States::new(&model.judge.program);
    let mut drawn = (0..50).map(|_| states.draw(rng));
    drawn.find(|state| model.judge.is_fit(state)).unwrap_or(State::Main)
}

/// No steps, few or many.
fn allowance(rng: &mut Rng) -> u64 {
    match rng.below(6) {
        0 => 0,
        1 | 2 => rng.between(1, 4) as u64,
        3 | 4 => rng.below(60) as u64,
        _ => rng.below(3_000) as u64,
    }
}

/// A variable that exists or not.
fn variable(rng: &mut Rng) -> u32 {
    if rng.one_in(4) {
        return rng.edge_word();
    }
    rng.below(8) as u32
}
