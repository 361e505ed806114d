//! The log of a run: one record for each step, by which the step can be taken back.

mod record;

pub use record::{before, last, record, LONGEST, MOST_PAIRS, WHOLE};

use crate::calls::held;
use crate::fit::Judge;
use crate::image::encode;
use crate::machine::run::{attempt, run, Attempt};
use crate::machine::{Outcome, Program, State};

/// Puts a record after the used length of a log and lets that grow, where the record fits.
fn put(record: &[u8], log: &mut [u8], used: &mut u64) -> bool {
    let rest = usize::try_from(*used).ok().and_then(|at| log.get_mut(at..));
    let Some(room) = rest.and_then(|rest| rest.get_mut(..record.len())) else { return false };
    room.copy_from_slice(record);
    *used += record.len() as u64;
    true
}

/// Runs a fit state on with a record of each step, and gives the outcome with the steps taken.
pub fn run_logged(
    program: &Program,
    state: &mut State,
    allowance: u64,
    log: &mut [u8],
    used: &mut u64,
) -> (Outcome, u64) {
    let mut steps = 0;
    let mut image = encode(state);
    loop {
        if let Some(outcome) = state.end() {
            return (outcome, steps);
        }
        if steps == allowance {
            return (Outcome::Spent, steps);
        }
        let mut next = state.clone();
        match attempt(program, &mut next) {
            Attempt::Stepped(_) => {}
            Attempt::Full => return (Outcome::Full, steps),
            Attempt::Stuck => unreachable!("no rule applies to {state:?}"),
        }
        let after = encode(&next);
        if !put(&record(&image, &after), log, used) {
            return (Outcome::LogFull, steps);
        }
        (*state, image) = (next, after);
        steps += 1;
    }
}

/// The fit state whose one step leads to this one, by the log's last record, with the used length before that record.
pub fn step_back(judge: &Judge, state: &State, log: &[u8], used: u64) -> Option<(State, u64)> {
    let record = last(log, used)?;
    let present = encode(state);
    let earlier = held(judge, &before(record, &present)[..])?;
    let mut next = earlier.clone();
    let (_, steps) = run(&judge.program, &mut next, 1);
    let leads = steps == 1 && encode(&next) == present;
    leads.then_some((earlier, used - record.len() as u64))
}
