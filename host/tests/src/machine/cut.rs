//! Runs cut into pieces end as the whole run does.

use super::trial::{Model, Trial};
use super::{worked, Entries};
use crate::report::Outcome;
use generators::lively;
use generators::rng::Rng;
use reference::machine::Outcome as End;

/// The lengths of the pieces.
const PIECES: [u64; 4] = [1, 2, 3, 7];

/// The longest run that is cut.
const LONGEST: u64 = 1_200;

/// The rows of the tables and so many random programs, cut into pieces of every length.
pub fn outcome(side: &Entries, programs: u64) -> Outcome {
    let mut outcome = Outcome::default();
    for row in worked::rows() {
        let most = row.allowance.min(LONGEST);
        outcome.add(pieces(side, &Model::new(&row.file), &row.name, most));
    }
    for seed in 0..programs {
        let model = Model::new(&lively::draw(&mut Rng::new(1_000_000 + seed)));
        outcome.add(pieces(side, &model, &format!("program {seed}"), LONGEST / 4));
    }
    outcome
}

/// One program in pieces of every length.
fn pieces(side: &Entries, model: &Model, name: &str, most: u64) -> Outcome {
    let mut outcome = Outcome::default();
    let (state, end, steps) = model.after(most);
    for piece in PIECES {
        let mut trial = Trial::started(side, model, format!("{name} by {piece}"));
        let mut total = 0;
        let last = loop {
            let (got, taken) = trial.run(piece.min(most - total));
            total += taken;
            if got != End::Spent || total == most {
                break got;
            }
        };
        let whole = || format!("{name} by {piece}, whole");
        trial.outcome.same(whole, &model.file, (end, steps), (last, total));
        let alike = trial.state == state;
        trial.outcome.same(|| format!("{name} by {piece}, end"), &model.file, true, alike);
        outcome.add(trial.outcome);
    }
    outcome
}
