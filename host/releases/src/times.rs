//! The time of a step of both releases, each in four copies.

use crate::steps::{after, programs, REACHED};
use bench::timing::{step_times, Reached};
use tests::copies::{BEFORE, NOW};

/// The steps of a timed run.
const STEPS: u64 = 20_000;

/// The rounds of samples, of whose medians the least is taken: the machine has slow spells.
const ROUNDS: usize = 5;

/// The least of some times.
fn least(times: impl Iterator<Item = f64>) -> f64 {
    times.fold(f64::INFINITY, f64::min)
}

/// The mean of the copies, and a row's cells of it, of the least and of the greatest.
fn cells(copies: Vec<f64>) -> (f64, String) {
    let least = least(copies.iter().copied());
    let greatest = copies.iter().copied().fold(0.0, f64::max);
    let mean = copies.iter().sum::<f64>() / copies.len() as f64;
    (mean, format!("{mean:.2} | {least:.2} to {greatest:.2}"))
}

/// Prints a row for each endless program, with all copies of all programs sampled in turn.
pub fn print() -> Result<bool, String> {
    let sides = [BEFORE, NOW].concat();
    let reached = |file: Vec<u8>| after(&BEFORE[0], &file, &[REACHED]).map(|memory| (file, memory));
    let files = programs().into_iter().map(|(_, make)| make().bytes());
    let from: Vec<Reached> = files.map(reached).collect::<Result<_, _>>()?;
    let rounds: Vec<_> = (0..ROUNDS).map(|_| step_times(&sides, &from, STEPS)).collect();
    println!("| program | before ns/step | its copies | now ns/step | its copies | ratio |");
    println!("|---|---:|---:|---:|---:|---:|");
    for (number, (name, _)) in programs().into_iter().enumerate() {
        let copy = |copy: usize| least(rounds.iter().map(|round| round[number][copy]));
        let (before, before_cells) = cells((0..BEFORE.len()).map(copy).collect());
        let (now, now_cells) = cells((BEFORE.len()..sides.len()).map(copy).collect());
        println!("| {name} | {before_cells} | {now_cells} | {:.2} |", now / before);
    }
    Ok(true)
}
