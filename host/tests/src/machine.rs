//! The machine's entry points under test, and all scenarios for them.

mod change;
mod cut;
mod deep;
mod editions;
mod fitness;
mod lists;
mod logs;
mod looks;
mod memories;
mod random;
mod safety;
mod scatter;
mod small;
mod states;
mod table;
mod trial;
mod worked;

use crate::report::Outcome;
use crate::Answer;
use reference::machine::{Outcome as End, Value};
use reference::{calls, fast, Refusal};
use std::panic::{catch_unwind, AssertUnwindSafe};

/// What a run answers.
pub type RunAnswer = Result<(End, u64), Refusal>;

/// What a look-up answers.
pub type LookAnswer = Result<Value, Refusal>;

/// What a logged run answers: the outcome, the steps and the used length of the log.
pub type LoggedAnswer = Result<calls::Logged, Refusal>;

/// What a step back answers: the used length of the log.
pub type BackAnswer = Result<u64, Refusal>;

/// The entry points of one side.
#[derive(Clone, Copy)]
pub struct Entries {
    pub name: &'static str,
    pub start: fn(&[u8], &mut [u32]) -> Answer,
    pub run: fn(&[u8], &mut [u32], u64) -> RunAnswer,
    pub memory_check: fn(&[u8], &[u32]) -> Answer,
    pub look_up: fn(&[u8], &[u32], u32) -> LookAnswer,
    pub run_logged: fn(&[u8], &mut [u32], u64, &mut [u8], u64) -> LoggedAnswer,
    pub step_back: fn(&[u8], &mut [u32], &[u8], u64) -> BackAnswer,
}

/// The entry points under test: the reference's, the fast ones, and the proved ones where they are linked.
pub fn entries() -> Vec<Entries> {
    vec![
        Entries {
            name: "reference",
            start: calls::start,
            run: calls::run,
            memory_check: calls::memory_check,
            look_up: calls::look_up,
            run_logged: calls::run_logged,
            step_back: calls::step_back,
        },
        Entries {
            name: "fast",
            start: fast::machine::start,
            run: fast::machine::run,
            memory_check: fast::machine::memory_check,
            look_up: fast::machine::look_up,
            run_logged: fast::machine::run_logged,
            step_back: fast::machine::step_back,
        },
        #[cfg(feature = "machine")]
        crate::proved::ENTRIES,
    ]
}

/// A group's outcome, in which a panic counts as a failure; where panics do not unwind, as in a release, it ends the program and fails it.
fn guarded(group: &dyn Fn() -> Outcome) -> Outcome {
    let panicked = |_| Outcome { failed: 1, ..Outcome::default() };
    catch_unwind(AssertUnwindSafe(group)).unwrap_or_else(panicked)
}

/// The scenarios on one side, with random ones of a size that a number's scale says.
fn on_side(side: &Entries, scale: impl Fn(u64) -> u64, report: &mut Report) {
    let groups: [(&str, &dyn Fn() -> Outcome); 15] = [
        ("table of runs, entry points", &|| table::outcome(side)),
        ("fit states, entry points", &|| fitness::outcome(side)),
        ("runs on in the other edition", &|| editions::outcome(side)),
        ("short memories", &|| table::short(side)),
        ("deep trees, small stack", &|| deep::outcome(side)),
        ("runs cut into pieces", &|| cut::outcome(side, scale(40))),
        ("look-ups after every step", &|| looks::outcome(side, scale(12))),
        ("logs at their limits", &|| logs::limits::outcome(side)),
        ("records by hand", &|| logs::records::outcome(side)),
        ("logged runs taken back", &|| logs::outcome(side, scale(800))),
        ("random lists of calls", &|| lists::outcome(side, scale(1_000))),
        ("random runs", &|| random::outcome(side, scale(20_000))),
        ("random runs in both editions", &|| editions::random(side, scale(4_000))),
        ("each word changed", &|| memories::each_word(side)),
        ("changed memories", &|| memories::outcome(side, scale(100_000))),
    ];
    for (name, group) in groups {
        report(name, side.name, &guarded(group));
    }
}

/// Takes a group's name, a side's name and what came of it.
type Report<'a> = dyn FnMut(&str, &str, &Outcome) + 'a;

/// Runs every scenario on every side and hands each group's outcome on.
pub fn run(report: &mut Report) {
    let scale = crate::scale();
    let sides = entries();
    if sides.len() < 3 {
        println!("the proved machine is not linked (feature `machine`)");
    }
    report("runs by hand, states", "reference", &guarded(&small::outcome));
    report("fit states by hand", "reference", &guarded(&fitness::judged));
    report("records of any two images", "reference", &guarded(&logs::layout::outcome));
    report("fit states stay fit", "reference", &guarded(&|| safety::outcome(1_500 * scale)));
    // The reference judges with its own tables, so fewer of its random answers tell anything.
    on_side(&sides[0], |number| number * scale / 4, report);
    for side in &sides[1..] {
        on_side(side, |number| number * scale, report);
    }
}
