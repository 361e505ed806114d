//! Logs with room for so many records and one byte less, used lengths past the log, and the order of a logged run's stops.

use super::super::trial::{Model, Trial};
use super::super::{worked, Entries};
use crate::report::Outcome;
use generators::tree::*;
use reference::calls::Logged;
use reference::machine::Outcome as End;

/// The used length after each step of `return 0`, whose records have 4, 4, 5 and 1 words.
const ENDS: [u64; 4] = [28, 56, 90, 100];

/// The records of `return 0` as bytes: main() is entered, `return` waits for its int, main is left, and the int is the value.
const RECORDS: [&[u8]; 4] = [
    b"BK\x00\x00\x01\0\0\0\x02\x00\0\0\0\0\x03\x00\0\0\0\0\x04\x00\0\0\0\0\x04\x00",
    b"BK\x03\x00\x05\0\0\0\x04\x00\x04\0\0\0\x81\x00\0\0\0\0\x80\x11\0\0\0\0\x04\x00",
    b"BK\x00\x00\x02\0\0\0\x02\x00\x01\0\0\0\x03\x00\x02\0\0\0\x81\x00\x01\0\0\0\x80\x11\x07\0\0\0\x05\x00",
    b"BK\x00\x00\x03\0\0\0\x01\x00",
];

/// Used lengths that are past every log.
const PAST: [u64; 6] = [201, 1 << 32, 1 << 63, u64::MAX - 27, u64::MAX - 1, u64::MAX];

/// All of it.
pub fn outcome(side: &Entries) -> Outcome {
    let mut outcome = bytes(side);
    outcome.add(rooms(side));
    outcome.add(past(side));
    outcome.add(past_a_record(side));
    outcome.add(stops(side));
    outcome
}

/// The trial of a program after so many steps, with a log of so many bytes.
fn reached<'a>(side: &'a Entries, model: &'a Model, steps: u64, room: usize) -> Trial<'a> {
    let (state, _, _) = model.after(steps);
    let mut trial = Trial::new(side, model, format!("after {steps} steps, log of {room}"), state);
    trial.lend(vec![0xA5; room], 0);
    trial
}

/// A logged run that must answer so.
fn answers(trial: &mut Trial, allowance: u64, expected: Logged) {
    let from = trial.used;
    let got = trial.run_logged(allowance);
    let name = || format!("{}, allowance {allowance}, used {from}", trial.label);
    trial.outcome.same(name, &trial.model.file, expected, got);
}

/// A step back that must be refused.
fn refused(trial: &mut Trial) {
    let got = trial.step_back();
    let name = || format!("{}, step back from {}", trial.label, trial.used);
    trial.outcome.compare(name, &trial.model.file, Some((18, 0, 0)), got);
}

/// The records of a run byte by byte.
fn bytes(side: &Entries) -> Outcome {
    let model = Model::new(&main(0, ret(int(0))));
    let mut trial = reached(side, &model, 0, 120);
    answers(&mut trial, 10, (End::Value(0), 4, 100));
    let expected = [RECORDS.concat(), vec![0xA5; 20]].concat();
    trial.outcome.words(|| "records of return 0".to_string(), &model.file, &expected, &trial.log);
    trial.outcome
}

/// Every room up to more than all records have, from several used lengths, and all the way back.
fn rooms(side: &Entries) -> Outcome {
    let mut outcome = Outcome::default();
    let model = Model::new(&main(0, ret(int(0))));
    for used in [0, 1, 2, 77, 70_000] {
        for room in [0, 1, 27, 28, 29, 55, 56, 57, 89, 90, 91, 99, 100, 101] {
            let mut trial = reached(side, &model, 0, (used + room) as usize);
            trial.used = used;
            let steps = ENDS.iter().filter(|&&end| end <= room).count();
            let after = used + ENDS[..steps].last().unwrap_or(&0);
            let end = if steps == 4 { End::Value(0) } else { End::LogFull };
            answers(&mut trial, 10, (end, steps as u64, after));
            answers(&mut trial, 10, (end, 0, after));
            for earlier in (0..steps).rev() {
                trial.step_back();
                let expected = used + ENDS[..earlier].last().unwrap_or(&0);
                let name = || format!("{}, used length on the way back", trial.label);
                trial.outcome.same(name, &model.file, expected, trial.used);
            }
            refused(&mut trial);
            outcome.add(trial.outcome);
        }
    }
    outcome
}

/// Used lengths past the log: no record fits and none is there.
fn past(side: &Entries) -> Outcome {
    let mut outcome = Outcome::default();
    let model = Model::new(&main(0, ret(int(0))));
    for (steps, end) in [(0, End::LogFull), (3, End::LogFull), (4, End::Value(0))] {
        for room in [0, 200] {
            let mut trial = reached(side, &model, steps, room);
            for used in PAST.into_iter().chain([room as u64 + 1]) {
                trial.used = used;
                answers(&mut trial, 5, (end, 0, used));
                refused(&mut trial);
            }
            // No record is as short as these lengths, and none fits after the last byte.
            for used in (0..4).chain([room as u64]).filter(|&used| used <= room as u64) {
                trial.used = used;
                refused(&mut trial);
            }
            outcome.add(trial.outcome);
        }
    }
    outcome
}

/// Used lengths past a log that ends with a record which leads back: the nearest length in the log, or that of the low bits, would name it.
fn past_a_record(side: &Entries) -> Outcome {
    let model = Model::new(&main(0, ret(int(0))));
    let mut trial = reached(side, &model, 0, 100);
    answers(&mut trial, 4, (End::Value(0), 4, 100));
    for more in [1, 10, 1 << 16, 1 << 31, 1 << 32, 1 << 63, u64::MAX - 100] {
        trial.used = 100 + more;
        refused(&mut trial);
    }
    trial.used = 100;
    let got = trial.step_back();
    trial.outcome.compare(|| "the record itself".to_string(), &model.file, None, got);
    trial.outcome
}

/// A final state, then Spent, then Full, then Log full, each where all that come after it hold as well.
fn stops(side: &Entries) -> Outcome {
    let mut outcome = Outcome::default();
    let (zero, abort) =
        (main(0, ret(int(0))), main(0, seq(assert_that(boolean(false)), ret(int(0)))));
    let arith = main(0, ret(op(DIV, int(1), int(0))));
    let deep = worked::calls_itself();
    let rows = [
        ("value", &zero, 4, 0, End::Value(0)),
        ("arith", &arith, 5, 0, End::Arith),
        ("abort", &abort, 4, 0, End::Abort),
        ("Spent before Full", &deep, 28, 0, End::Spent),
        ("Spent before Log full", &zero, 2, 0, End::Spent),
        ("Full before Log full", &deep, 28, 1, End::Full),
        ("Log full", &zero, 2, 1, End::LogFull),
        ("Log full before the last step", &zero, 3, u64::MAX, End::LogFull),
    ];
    for (name, file, steps, allowance, end) in rows {
        let model = Model::new(file);
        for room in [0, 9] {
            let mut trial = reached(side, &model, steps, room);
            trial.label = format!("{name}, log of {room}");
            answers(&mut trial, allowance, (end, 0, 0));
            outcome.add(trial.outcome);
        }
    }
    let model = Model::new(&zero);
    for (room, allowance, expected) in [
        (100, 4, (End::Value(0), 4, 100)),
        (100, 3, (End::Spent, 3, 90)),
        (90, 3, (End::Spent, 3, 90)),
        (90, 4, (End::LogFull, 3, 90)),
        (89, 3, (End::LogFull, 2, 56)),
        (89, 2, (End::Spent, 2, 56)),
    ] {
        let mut trial = reached(side, &model, 0, room);
        answers(&mut trial, allowance, expected);
        outcome.add(trial.outcome);
    }
    outcome
}
