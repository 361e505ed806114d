//! The time of a step, by the mix of rules.

use super::{fine, Sides};
use generators::endless;
use reference::machine::Outcome;

/// The steps of a timed run.
const STEPS: u64 = 20_000;

/// Prints the time of a step in each program that runs without end.
pub fn print(sides: &Sides) {
    let name = sides.judged.name;
    println!("\n| program | {name} ns/step | plain ns/step | ratio | {name}, million steps/s |");
    println!("|---|---:|---:|---:|---:|");
    let from = endless::ALL.map(|(program, make)| {
        let file = make().bytes();
        let memory = sides.after(&file, 1_000);
        let answer = (sides.plain.run)(&file, &mut memory.clone(), STEPS);
        assert_eq!(answer, Ok((Outcome::Spent, STEPS)), "{program}");
        (file, memory)
    });
    for ((program, _), times) in endless::ALL.iter().zip(sides.steps(&from, STEPS)) {
        println!("| {program} | {} {:.0} |", fine(times), 1e3 / times[0].max(0.01));
    }
}
