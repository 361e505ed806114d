//! Whole runs of random programs.

use super::trial::{Model, Trial};
use super::Entries;
use crate::report::Outcome;
use generators::rng::Rng;
use generators::{lively, valid, Names};
use reference::machine::run::{attempt, Attempt};
use reference::machine::step::RULES;
use reference::machine::{Outcome as End, State};

/// How often each rule and each outcome came up, and the steps, pieces and look-ups.
#[derive(Default)]
struct Tally {
    rules: [u64; RULES],
    /// The outcomes in editions 0 and 1.
    ends: [[u64; 5]; 2],
    steps: u64,
    pieces: u64,
    looks: u64,
}

/// The place of an outcome in a tally; a run without a log has none at the last one.
pub fn place(end: End) -> usize {
    match end {
        End::Value(_) => 0,
        End::Arith => 1,
        End::Abort => 2,
        End::Spent => 3,
        End::Full => 4,
        End::LogFull => 5,
    }
}

/// A random program: mostly one that ends, else any.
fn program(rng: &mut Rng) -> Model {
    if !rng.one_in(10) {
        return Model::new(&lively::draw(rng));
    }
    let functions = rng.between(1, 4);
    let nodes = 2 * functions + rng.below(100);
    Model::new(&valid::draw_sized(rng, functions, nodes, Names::Valued))
}

/// So many programs, each run whole and once more in pieces of random lengths.
pub fn outcome(side: &Entries, programs: u64) -> Outcome {
    let mut outcome = Outcome::default();
    let mut tally = Tally::default();
    for seed in 0..programs {
        let mut rng = Rng::new(4_000_000 + seed);
        let model = program(&mut rng);
        let allowance = if rng.one_in(20) { 20_000 } else { 1 + rng.below(2_000) as u64 };
        let mut trial = Trial::started(side, &model, format!("program {seed}"));
        let whole = trial.run(allowance);
        let edition = usize::from(model.judge.program.edition);
        tally.ends[edition][place(whole.0)] += 1;
        tally.steps += whole.1;
        if seed % 16 == 0 {
            tally.count(&model, whole.1);
        }
        tally.cut(&mut trial, &mut rng, allowance, whole);
        outcome.add(trial.outcome);
    }
    let Tally { rules, ends, steps, pieces, looks } = tally;
    println!("  {steps} steps; value, arith, abort, Spent, Full in editions 0 and 1: {ends:?}");
    println!(
        "  the same again in {pieces} pieces of random lengths, {looks} look-ups between them"
    );
    let seen = rules.iter().chain(ends.as_flattened()).all(|&count| count > 0);
    outcome.same(|| format!("all rules and outcomes {rules:?}"), &[], true, seen);
    outcome
}

impl Tally {
    /// Counts the rules of a run.
    fn count(&mut self, model: &Model, steps: u64) {
        let mut state = State::Main;
        for _ in 0..steps {
            match attempt(&model.judge.program, &mut state) {
                Attempt::Stepped(rule) => self.rules[rule as usize] += 1,
                _ => return,
            }
        }
    }

    /// The run once more in pieces of random lengths, with look-ups after each; together they are the whole run.
    fn cut(&mut self, trial: &mut Trial, rng: &mut Rng, allowance: u64, whole: (End, u64)) {
        trial.start();
        let longest = whole.1 as usize / rng.between(1, 8) + 2;
        let mut taken = 0;
        let last = loop {
            let (end, steps) = trial.run((rng.below(longest) as u64).min(allowance - taken));
            taken += steps;
            self.pieces += 1;
            for variable in [rng.below(3) as u32, rng.below(9) as u32] {
                trial.look_up(variable);
                self.looks += 1;
            }
            if end != End::Spent || taken == allowance {
                break end;
            }
        };
        trial.memory_check();
        let name = || format!("{}, pieces together", trial.label);
        trial.outcome.same(name, &trial.model.file, whole, (last, taken));
    }
}
