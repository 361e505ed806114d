//! A trace: a program's file, and what each single step of it answers and writes.

use reference::image::WORDS;
use reference::machine::Outcome;
use std::fmt::{Display, Formatter, Result as Written};
use tests::machine::Entries;
use tests::report::{hex, shown};
use tests::used;

/// The lines before a trace, which say how it is read.
pub const HEADING: &str = "\
# Calls of 0 to 8 arguments, one step at a time: the outcomes, the steps and all 16,384 words after each of them. A program has a line
# with its name, a line with its file's bytes in hex, a line for its start and a line for each run of one step after it. A run's line has
# the outcome, the steps taken and the words that changed; the last run of a program takes no step. `PLACE:WORD,WORD` are the new words
# from a place on, the place in decimal and the words in hex. The start's line has the words that are not zero.
";

/// Neighbouring words that changed, after the place of the first of them.
pub type Change = (usize, Vec<u32>);

/// A run of one step: its outcome, the steps it took and what it changed.
#[derive(Clone, PartialEq, Debug)]
pub struct Run {
    pub outcome: Outcome,
    pub steps: u64,
    pub changes: Vec<Change>,
}

/// A program with its start and its runs.
#[derive(Clone, PartialEq, Debug)]
pub struct Trace {
    pub name: String,
    pub file: Vec<u8>,
    pub start: Vec<Change>,
    pub runs: Vec<Run>,
}

/// The words of one memory that another has changed.
fn changes(from: &[u32], to: &[u32]) -> Vec<Change> {
    let mut all: Vec<Change> = Vec::new();
    for (place, (old, &new)) in from.iter().zip(to).enumerate() {
        match all.last_mut() {
            _ if *old == new => {}
            Some((first, words)) if *first + words.len() == place => words.push(new),
            _ => all.push((place, vec![new])),
        }
    }
    all
}

/// Writes changed words into a memory.
pub fn apply(changes: &[Change], memory: &mut [u32]) {
    for (place, words) in changes {
        memory[*place..place + words.len()].copy_from_slice(words);
    }
}

/// The trace of a program to its end, through one side's entry points.
pub fn taken(side: &Entries, name: String, file: Vec<u8>) -> Result<Trace, String> {
    let refused = |refusal| format!("{name}: {}", shown(Some(refusal)));
    let mut memory = used(WORDS);
    if let Some(refusal) = (side.start)(&file, &mut memory) {
        return Err(refused(refusal));
    }
    let start = changes(&[0; WORDS], &memory);
    let mut runs = Vec::new();
    loop {
        let before = memory.clone();
        let (outcome, steps) = (side.run)(&file, &mut memory, 1).map_err(refused)?;
        runs.push(Run { outcome, steps, changes: changes(&before, &memory) });
        if steps == 0 {
            return Ok(Trace { name, file, start, runs });
        }
    }
}

/// An outcome as the printing program has it.
fn word(outcome: Outcome) -> String {
    match outcome {
        Outcome::Value(value) => format!("value {value}"),
        Outcome::Arith => "arith".to_string(),
        Outcome::Abort => "abort".to_string(),
        Outcome::Spent => "Spent".to_string(),
        Outcome::Full => "Full".to_string(),
        Outcome::LogFull => "Log full".to_string(),
    }
}

/// Changes as a line ends with them.
fn listed(changes: &[Change]) -> String {
    let one = |(place, words): &Change| {
        let words: Vec<String> = words.iter().map(|word| format!("{word:x}")).collect();
        format!(" {place}:{}", words.join(","))
    };
    changes.iter().map(one).collect()
}

impl Display for Trace {
    fn fmt(&self, out: &mut Formatter) -> Written {
        writeln!(out, "\nprogram {}\nfile {}", self.name, hex(&self.file))?;
        writeln!(out, "start{}", listed(&self.start))?;
        for Run { outcome, steps, changes } in &self.runs {
            writeln!(out, "{} {steps}{}", word(*outcome), listed(changes))?;
        }
        Ok(())
    }
}
