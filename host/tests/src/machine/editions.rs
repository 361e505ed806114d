//! Shifts in both editions, and memories that are run on with the other edition's file.

use super::trial::{Model, Trial};
use super::worked::Row;
use super::Entries;
use crate::report::Outcome;
use generators::rng::Rng;
use generators::tree::*;
use generators::{lively, File};
use reference::machine::Outcome::{self as End, Arith, Spent, Value};
use reference::machine::{run, State};

/// The least and the greatest int.
const LEAST: i32 = i32::MIN;
const MOST: i32 = i32::MAX;

/// `return l << r` or `return l >> r`, with its outcomes in editions 0 and 1.
const SHIFTS: [(&str, u8, i32, i32, [End; 2]); 36] = [
    ("1<<−2^31", SHL, 1, LEAST, [Value(1), Arith]),
    ("1<<−33", SHL, 1, -33, [Value(LEAST), Arith]),
    ("1<<−32", SHL, 1, -32, [Value(1), Arith]),
    ("1<<−31", SHL, 1, -31, [Value(2), Arith]),
    ("1<<−1", SHL, 1, -1, [Value(LEAST), Arith]),
    ("1<<0", SHL, 1, 0, [Value(1), Value(1)]),
    ("1<<1", SHL, 1, 1, [Value(2), Value(2)]),
    ("1<<30", SHL, 1, 30, [Value(1_073_741_824), Value(1_073_741_824)]),
    ("1<<31", SHL, 1, 31, [Value(LEAST), Value(LEAST)]),
    ("1<<32", SHL, 1, 32, [Value(1), Arith]),
    ("1<<33", SHL, 1, 33, [Value(2), Arith]),
    ("1<<2^31−1", SHL, 1, MOST, [Value(LEAST), Arith]),
    ("0<<31", SHL, 0, 31, [Value(0), Value(0)]),
    ("0<<32", SHL, 0, 32, [Value(0), Arith]),
    ("3<<31", SHL, 3, 31, [Value(LEAST), Value(LEAST)]),
    ("−2^31<<1", SHL, LEAST, 1, [Value(0), Value(0)]),
    ("−8<<32", SHL, -8, 32, [Value(-8), Arith]),
    ("−8>>−2^31", SHR, -8, LEAST, [Value(-8), Arith]),
    ("−8>>−33", SHR, -8, -33, [Value(-1), Arith]),
    ("−8>>−32", SHR, -8, -32, [Value(-8), Arith]),
    ("−8>>−31", SHR, -8, -31, [Value(-4), Arith]),
    ("−8>>−1", SHR, -8, -1, [Value(-1), Arith]),
    ("−8>>0", SHR, -8, 0, [Value(-8), Value(-8)]),
    ("−8>>1", SHR, -8, 1, [Value(-4), Value(-4)]),
    ("−8>>30", SHR, -8, 30, [Value(-1), Value(-1)]),
    ("−8>>31", SHR, -8, 31, [Value(-1), Value(-1)]),
    ("−8>>32", SHR, -8, 32, [Value(-8), Arith]),
    ("−8>>33", SHR, -8, 33, [Value(-4), Arith]),
    ("−8>>2^31−1", SHR, -8, MOST, [Value(-1), Arith]),
    ("0>>32", SHR, 0, 32, [Value(0), Arith]),
    ("5>>2", SHR, 5, 2, [Value(1), Value(1)]),
    ("5>>31", SHR, 5, 31, [Value(0), Value(0)]),
    ("5>>−2^31", SHR, 5, LEAST, [Value(5), Arith]),
    ("5>>2^31−1", SHR, 5, MOST, [Value(0), Arith]),
    ("−2^31>>31", SHR, LEAST, 31, [Value(-1), Value(-1)]),
    ("2^31−1>>30", SHR, MOST, 30, [Value(1), Value(1)]),
];

/// A program whose shift is the first step that the editions take apart.
struct Parting {
    name: &'static str,
    file: File,
    /// The steps before that shift.
    before: u64,
    /// The outcomes and steps of the whole run in editions 0 and 1.
    ends: [(End, u64); 2],
}

/// `return 1 + f(3)` with f(n) `return n << 32`.
fn in_a_call() -> File {
    let sum = op(ADD, int(1), call(1, vec![int(3)]));
    let shift = ret(op(SHL, var(0), int(32)));
    file(&[function(INT, 0, ret(sum)), taking(INT, 1, 0, 1, shift)])
}

/// `x0 = 30; while(x0 < 34, seq(1 << x0, x0 = x0 + 1)); return x0`.
fn in_a_loop() -> File {
    let turn = seq(discard(op(SHL, int(1), var(0))), assign(0, op(ADD, var(0), int(1))));
    let all = seq(while_do(op(LT, var(0), int(34)), turn), ret(var(0)));
    main(1, decl(0, INT, seq(assign(0, int(30)), all)))
}

/// `if(true && 1 << 32 == 0, return 1, return 2)`.
fn in_a_condition() -> File {
    let right = op(EQ, op(SHL, int(1), int(32)), int(0));
    main(0, if_else(and(boolean(true), right), ret(int(1)), ret(int(2))))
}

/// The programs on which the editions part.
fn partings() -> Vec<Parting> {
    let parting = |name, file, before, ends| Parting { name, file, before, ends };
    let left = main(0, ret(op(SHL, int(1), int(32))));
    let right = main(0, ret(op(SHR, int(5), int(-1))));
    vec![
        parting("a shift to the left", left, 4, [(Value(1), 7), (Arith, 5)]),
        parting("a shift to the right", right, 4, [(Value(0), 7), (Arith, 5)]),
        parting("a shift in a call", in_a_call(), 10, [(Value(4), 15), (Arith, 11)]),
        parting("a shift in a loop", in_a_loop(), 66, [(Value(34), 111), (Arith, 67)]),
        parting("a shift right of &&", in_a_condition(), 7, [(Value(2), 14), (Arith, 8)]),
    ]
}

/// A file in an edition.
fn in_edition(file: &File, edition: u8) -> File {
    file.clone().with(|f| f.header.edition = edition)
}

/// A row of a file in an edition.
fn row(name: &str, edition: u8, file: &File, allowance: u64, expected: (End, u64)) -> Row {
    let name = format!("{name}, edition {edition}");
    Row { name, file: in_edition(file, edition), allowance, expected }
}

/// The runs in which the editions may differ, in both.
pub fn rows() -> Vec<Row> {
    let mut rows = Vec::new();
    for (edition, at) in [(0, 0), (1, 1)] {
        for (name, number, l, r, ends) in SHIFTS {
            let steps = if ends[at] == Arith { 5 } else { 7 };
            let file = main(0, ret(op(number, int(l), int(r))));
            rows.push(row(name, edition, &file, 1_000, (ends[at], steps)));
        }
        for Parting { name, file, before, ends } in partings() {
            rows.push(row(name, edition, &file, 1_000, ends[at]));
            rows.push(row(name, edition, &file, before, (Spent, before)));
        }
    }
    let skipped = op(EQ, op(SHL, int(1), int(32)), int(0));
    let file = main(0, if_else(and(boolean(false), skipped), ret(int(1)), ret(int(2))));
    rows.push(row("false && 1<<32 == 0", 1, &file, 1_000, (Value(2), 8)));
    rows
}

/// Rows of edition 0 once more in edition 1, which changes none of them that has no shift.
pub fn again(rows: &[Row]) -> Vec<Row> {
    let shifts =
        |row: &&Row| row.file.nodes.iter().any(|n| n.kind == 3 && matches!(n.a, SHL | SHR));
    let without = rows.iter().filter(|row| !shifts(row));
    without.map(|r| row(&r.name, 1, &r.file, r.allowance, r.expected)).collect()
}

/// A file with the reference's reading of it in editions 0 and 1.
fn models(file: &File) -> [Model; 2] {
    [0, 1].map(|edition| Model::new(&in_edition(file, edition)))
}

/// Runs that are cut at each step up to the shift and run on with the file of the other edition, whose outcome they then have.
pub fn outcome(side: &Entries) -> Outcome {
    let mut outcome = Outcome::default();
    for Parting { name, file, before, ends } in partings() {
        let models = models(&file);
        for (first, then) in [(0, 1), (1, 0)] {
            for cut in 0..=before {
                let label = format!("{name}, {cut} steps in edition {first}");
                let mut trial = Trial::started(side, &models[first], label);
                trial.run(cut);
                let (end, steps) = ends[then];
                // The end is the same in both editions once it is there.
                for (edition, left) in [(then, steps - cut), (first, 0)] {
                    trial.model = &models[edition];
                    trial.memory_check();
                    let got = trial.run(1_000);
                    let label = || format!("{}, then edition {edition}", trial.label);
                    trial.outcome.same(label, &models[edition].file, (end, left), got);
                }
                outcome.add(trial.outcome);
            }
        }
    }
    outcome
}

/// The pieces that a random program's run is cut into.
const PIECES: usize = 8;

/// So many random programs, whose pieces are run in either edition on one memory.
pub fn random(side: &Entries, programs: u64) -> Outcome {
    let mut outcome = Outcome::default();
    let mut apart = 0;
    for seed in 0..programs {
        let mut rng = Rng::new(8_000_000 + seed);
        let models = models(&lively::draw(&mut rng));
        let mut trial = Trial::started(side, &models[0], format!("program {seed}"));
        for _ in 0..PIECES {
            let allowance = rng.below(120) as u64;
            apart += usize::from(parts(&models, &trial.state, allowance));
            trial.model = &models[rng.below(2)];
            trial.run(allowance);
            trial.look_up(rng.below(4) as u32);
            trial.memory_check();
        }
        outcome.add(trial.outcome);
    }
    println!("  {apart} of {} pieces differ by the edition", programs * PIECES as u64);
    outcome.same(|| "pieces that differ by the edition".to_string(), &[], true, apart > 0);
    outcome
}

/// Whether so many steps from a state differ by the edition.
fn parts(models: &[Model; 2], state: &State, allowance: u64) -> bool {
    let [first, second] = models.each_ref().map(|model| {
        let mut state = state.clone();
        (run(&model.judge.program, &mut state, allowance), state)
    });
    first != second
}
