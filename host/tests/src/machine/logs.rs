//! Logged runs that are cut anywhere and taken all the way back.

pub mod layout;
pub mod limits;
pub mod records;
mod states;

use super::lists::fit_state;
use super::random::place;
use super::trial::{Model, Trial};
use super::{worked, Entries};
use crate::report::Outcome;
use generators::lively;
use generators::rng::Rng;
use reference::machine::{Outcome as End, State};

/// The steps after which no further run of a program is logged.
const MOST: u64 = 100;

/// So many random bytes.
fn noise(rng: &mut Rng, length: usize) -> Vec<u8> {
    (0..length).map(|_| rng.draw() as u8).collect()
}

/// Lends a random log, whose used length is mostly in it.
pub fn lend(trial: &mut Trial, rng: &mut Rng) {
    let length = [0, 40, 400, 4_000][rng.below(4)];
    let log = noise(rng, length);
    let used = if rng.one_in(8) { length + rng.below(3) } else { rng.below(length / 2) };
    trial.lend(log, used as u64);
}

/// Changes a bit of the log, its length or its used length; now and then it is another log.
pub fn disturb(trial: &mut Trial, rng: &mut Rng) {
    match rng.below(6) {
        0 => lend(trial, rng),
        1 => trial.used = [rng.draw(), 1 << 32, u64::MAX, 0][rng.below(4)],
        2 => trial.used = trial.used.wrapping_add(rng.below(9) as u64).wrapping_sub(4),
        3 => trial.change_log(|log| log.truncate(rng.below(log.len() + 1))),
        4 => trial.change_log(|log| log.resize(log.len() + rng.below(500), 7)),
        _ => {
            let near = trial.used.saturating_sub(rng.between(1, 40) as u64) as usize;
            trial.change_log(|log| {
                log.iter_mut().skip(near).take(1).for_each(|b| *b ^= 1 << rng.below(8))
            });
        }
    }
}

/// What was logged.
#[derive(Default)]
struct Tally {
    runs: u64,
    steps: u64,
    bytes: u64,
    ends: [u64; 6],
}

/// So many random programs, and among them one that calls itself, in which every outcome must come up.
pub fn outcome(side: &Entries, programs: u64) -> Outcome {
    let mut outcome = Outcome::default();
    let mut tally = Tally::default();
    for seed in 0..programs {
        outcome.add(tally.program(side, seed));
    }
    let Tally { runs, steps, bytes, ends } = tally;
    println!("  {steps} steps in {runs} logged runs, {bytes} bytes, all taken back");
    println!("  value, arith, abort, Spent, Full, Log full: {ends:?}");
    let seen = ends.iter().all(|&count| count > 0);
    outcome.same(|| format!("all outcomes of a logged run {ends:?}"), &[], true, seen);
    outcome
}

impl Tally {
    /// One program from a start, from memory that a run left some steps before its end, or from a random fit state.
    fn program(&mut self, side: &Entries, seed: u64) -> Outcome {
        let mut rng = Rng::new(9_000_000 + seed);
        let calls = rng.one_in(12);
        let file = if calls { worked::calls_itself() } else { lively::draw(&mut rng) };
        let model = Model::new(&file);
        let first = match rng.below(4) {
            0 => State::Main,
            1 => {
                let (_, _, length) = model.after(2_000);
                model.after(length.saturating_sub(rng.below(60) as u64)).0
            }
            _ => fit_state(&model, &mut rng),
        };
        let mut trial = Trial::new(side, &model, format!("program {seed}"), first.clone());
        let (before, below) = (rng.below(200), rng.below(4_000));
        trial.lend(noise(&mut rng, before + below), before as u64);
        let memory = trial.memory.clone();
        let steps = self.runs(&mut trial, &mut rng);
        for _ in 0..steps {
            let refused = trial.step_back();
            let name = || format!("{}, a step back of {steps}", trial.label);
            trial.outcome.compare(name, &model.file, None, refused);
        }
        let name = || format!("{}, all the way back", trial.label);
        let (same, back) = ((&first, before as u64), (&trial.state, trial.used));
        trial.outcome.same(name, &model.file, same, back);
        trial.outcome.words(name, &model.file, &memory, &trial.memory);
        trial.step_back();
        trial.outcome
    }

    /// Logged runs of random lengths to an end, with room added to every second log that is full; gives the steps of all.
    fn runs(&mut self, trial: &mut Trial, rng: &mut Rng) -> u64 {
        let (mut steps, used) = (0, trial.used);
        while steps < MOST {
            let (end, taken, _) = trial.run_logged(rng.below(40) as u64);
            self.runs += 1;
            self.ends[place(end)] += 1;
            steps += taken;
            match end {
                End::Spent => {}
                End::LogFull if rng.one_in(2) => {
                    let more = rng.below(600);
                    trial.change_log(|log| log.resize(log.len() + more, 0xB5));
                }
                _ => break,
            }
        }
        self.steps += steps;
        self.bytes += trial.used - used;
        steps
    }
}
