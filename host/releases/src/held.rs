//! Holds each side to a stored trace: every answer and every word after every step.

use crate::read;
use crate::trace::{apply, Trace};
use generators::calls;
use reference::image::WORDS;
use tests::machine::{entries, Entries};
use tests::report::Outcome;
use tests::{used, TAIL};

/// Reads a trace and prints a line for each side; gives whether all of them agree with it.
pub fn run(path: &str) -> Result<bool, String> {
    let text = std::fs::read_to_string(path).map_err(|reason| format!("{path}: {reason}"))?;
    let traces = read::traces(&text).map_err(|reason| format!("{path}: {reason}"))?;
    let mut total = programs(&traces);
    total.print("programs of the trace", "generators");
    let sides = entries();
    if sides.len() < 3 {
        println!("the proved library is not linked (feature `machine`)");
    }
    for side in sides {
        let outcome = on_side(&side, &traces);
        outcome.print("calls, step by step", side.name);
        total.add(outcome);
    }
    println!("calls: {} passed, {} failed", total.passed, total.failed);
    Ok(total.failed == 0)
}

/// Whether the traced programs are those that are generated, by name and by bytes.
pub fn programs(traces: &[Trace]) -> Outcome {
    let mut outcome = Outcome::default();
    let made = calls::programs();
    outcome.same(|| "number of programs".to_string(), &[], made.len(), traces.len());
    for ((name, file), trace) in made.into_iter().zip(traces) {
        outcome.same(|| format!("name of {name}"), &trace.file, &name, &trace.name);
        outcome.same(|| format!("file of {name}"), &trace.file, file.bytes(), trace.file.clone());
    }
    outcome
}

/// One side held to every program.
pub fn on_side(side: &Entries, traces: &[Trace]) -> Outcome {
    let mut outcome = Outcome::default();
    traces.iter().for_each(|trace| outcome.add(on_program(side, trace)));
    outcome
}

/// One side held to one program, up to the first step that differs.
fn on_program(side: &Entries, trace: &Trace) -> Outcome {
    let (mut outcome, file) = (Outcome::default(), &trace.file);
    let mut memory = used(WORDS + TAIL);
    let mut expected = memory.clone();
    expected[..WORDS].fill(0);
    apply(&trace.start, &mut expected);
    let answer = (side.start)(file, &mut memory);
    outcome.compare(|| format!("{}, start", trace.name), file, None, answer);
    outcome.words(|| format!("{}, memory after the start", trace.name), file, &expected, &memory);
    for (step, run) in (1..).zip(&trace.runs) {
        if outcome.failed > 0 {
            break;
        }
        apply(&run.changes, &mut expected);
        let answer = (side.run)(file, &mut memory, 1);
        let name = || format!("{}, step {step}", trace.name);
        outcome.same(name, file, Ok((run.outcome, run.steps)), answer);
        let name = || format!("{}, memory after step {step}", trace.name);
        outcome.words(name, file, &expected, &memory);
    }
    outcome
}
