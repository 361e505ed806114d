//! Tests of the traced programs, and of what a changed trace is seen by.

use crate::held::{on_side, programs};
use crate::read;
use crate::trace::{taken, Trace};
use generators::calls;
use reference::machine::Outcome as End;
use tests::machine::entries;
use tests::report::Outcome;

/// The traces of every program, as the reference takes them.
fn traces() -> Vec<Trace> {
    let taken = |(name, file): (String, generators::File)| {
        taken(&entries()[0], name, file.bytes()).expect("the program is accepted")
    };
    calls::programs().into_iter().map(taken).collect()
}

/// What the reference says of traces, and the names of the first differences with the expected words.
fn told(traces: &[Trace]) -> (Outcome, Vec<String>) {
    let outcome = on_side(&entries()[0], traces);
    let told = outcome.differences.iter().map(|d| format!("{}: {}", d.name, d.expected)).collect();
    (outcome, told)
}

/// The steps of each program of a family, from no argument to eight.
fn steps(traces: &[Trace], family: &str) -> Vec<usize> {
    let own = traces.iter().filter(|trace| trace.name.starts_with(&format!("{family}, ")));
    own.map(|trace| trace.runs.len() - 1).collect()
}

/// The outcome of each program of a family.
fn ends(traces: &[Trace], family: &str) -> Vec<End> {
    let own = traces.iter().filter(|trace| trace.name.starts_with(family));
    own.map(|trace| trace.runs[trace.runs.len() - 1].outcome).collect()
}

#[test]
fn programs_take_the_steps_counted_by_hand() {
    let traces = traces();
    assert_eq!(steps(&traces, "constants"), [7, 13, 14, 15, 16, 17, 18, 19, 20]);
    let operators = steps(&traces, "operators, ints and bools in turn");
    assert_eq!(operators, [7, 12, 13, 17, 18, 22, 23, 27, 28]);
    assert_eq!(ends(&traces, "calls without an end"), [End::Full; 9]);
    let ended = ends(&traces, "calls to the caller limit");
    assert!(ended.len() == 9 && ended.iter().all(|end| matches!(end, End::Value(_))));
}

#[test]
fn calls_reach_the_caller_limit() {
    let most = |trace: &Trace| {
        let changes = trace.runs.iter().flat_map(|run| &run.changes);
        changes.filter(|(place, _)| *place == 2).map(|(_, words)| words[0]).max()
    };
    let deep = |trace: &&Trace| trace.name.starts_with("calls ");
    let traces = traces();
    let reached: Vec<_> = traces.iter().filter(deep).map(most).collect();
    assert_eq!(reached, [Some(14); 18]);
}

#[test]
fn a_written_trace_is_read_back() {
    let traces = traces();
    let text: String = traces.iter().map(Trace::to_string).collect();
    assert_eq!(read::traces(&text), Ok(traces.clone()));
    assert_eq!(programs(&traces).failed, 0);
    assert_eq!(told(&traces).0.failed, 0);
}

#[test]
fn a_changed_word_is_noticed() {
    let mut traces = traces();
    traces[3].runs[5].changes[0].1[0] ^= 1;
    let (place, word) = (traces[3].runs[5].changes[0].0, traces[3].runs[5].changes[0].1[0]);
    let (outcome, told) = told(&traces);
    assert_eq!(outcome.failed, 1);
    let name = "constants, 3 arguments, memory after step 6";
    assert_eq!(told, [format!("{name}: word {place} Some({word})")]);
}

#[test]
fn a_missing_step_is_noticed() {
    let mut traces = traces();
    traces[8].runs.remove(11);
    let (outcome, told) = told(&traces);
    assert!(outcome.failed > 0);
    assert!(told[0].starts_with("constants, 8 arguments, memory after step 12: word "));
    traces[8].runs.pop();
    let text: String = traces.iter().map(Trace::to_string).collect();
    let refused = read::traces(&text).expect_err("the program has no end");
    assert!(refused.ends_with("constants, 8 arguments has no end"), "{refused}");
}

#[test]
fn another_program_is_noticed() {
    let mut traces = traces();
    traces[4].file[16] ^= 1;
    assert_eq!(programs(&traces).failed, 1);
    traces.pop();
    assert_eq!(programs(&traces).failed, 2);
}

#[test]
fn what_is_no_trace_is_refused() {
    let read = |text: &str| read::traces(text).expect_err("the text is no trace");
    assert_eq!(read("# nothing\n"), "there is no program");
    assert_eq!(read("file 00\n"), "line 1: there is no program before it");
    let begun = "program p\nfile 00\nstart 0:1\n";
    assert_eq!(read(begun), "p has no end");
    let line = |text: &str| read(&format!("{begun}{text}\n"));
    assert_eq!(line("Value 0"), "line 4: Value is no outcome");
    assert_eq!(line("Spent"), "line 4: \"\" is no number");
    assert_eq!(line("Spent 1 16383:1,2"), "line 4: 16383:1,2 is outside the image");
    assert_eq!(line("Spent 1 2"), "line 4: 2 has no place");
    assert_eq!(line("Full 0\nFull 0"), "line 5: Full has no place here");
    assert_eq!(read("program p\nfile 0\n"), "line 2: half a byte");
}
