//! Reads a trace that is stored as text.

use crate::trace::{Change, Run, Trace};
use reference::image::WORDS;
use reference::machine::Outcome;
use std::str::FromStr;

/// The programs of a text, or the number of the first line that is no part of a trace.
pub fn traces(text: &str) -> Result<Vec<Trace>, String> {
    let all = text.lines().enumerate();
    let kept = all.filter(|(_, line)| !line.is_empty() && !line.starts_with('#'));
    let mut found: Vec<Trace> = Vec::new();
    for (number, line) in kept {
        let at = |reason| format!("line {}: {reason}", number + 1);
        let (first, rest) = line.split_once(' ').unwrap_or((line, ""));
        match (first, found.last_mut()) {
            ("program", last) => {
                last.map_or(Ok(()), |program| ended(program)).map_err(at)?;
                found.push(named(rest));
            }
            (_, Some(program)) => add(program, first, rest).map_err(at)?,
            _ => return Err(at("there is no program before it".to_string())),
        }
    }
    match found.last() {
        Some(last) => ended(last).map(|()| found),
        None => Err("there is no program".to_string()),
    }
}

/// A program without anything else.
fn named(name: &str) -> Trace {
    Trace { name: name.to_string(), file: Vec::new(), start: Vec::new(), runs: Vec::new() }
}

/// Adds a line to the program that it belongs to, if it is the next one.
fn add(program: &mut Trace, first: &str, rest: &str) -> Result<(), String> {
    match first {
        "file" if program.file.is_empty() => program.file = bytes(rest)?,
        "start" if !program.file.is_empty() && program.start.is_empty() => {
            program.start = changes(rest)?;
        }
        _ if program.start.is_empty() || ended(program).is_ok() => {
            return Err(format!("{first} has no place here"));
        }
        _ => program.runs.push(run(first, rest)?),
    }
    Ok(())
}

/// Whether a program's last run takes no step.
fn ended(program: &Trace) -> Result<(), String> {
    match program.runs.last() {
        Some(Run { steps: 0, .. }) => Ok(()),
        _ => Err(format!("{} has no end", program.name)),
    }
}

/// A number in decimal.
fn decimal<T: FromStr>(digits: &str) -> Result<T, String> {
    digits.parse().map_err(|_| format!("{digits:?} is no number"))
}

/// A number in hex.
fn hex(digits: &str) -> Result<u32, String> {
    u32::from_str_radix(digits, 16).map_err(|_| format!("{digits:?} is no word"))
}

/// Bytes in hex.
fn bytes(digits: &str) -> Result<Vec<u8>, String> {
    let pair = |at: usize| {
        let byte = digits.get(at..at + 2).map(hex);
        byte.unwrap_or(Err("half a byte".to_string())).map(|byte| byte as u8)
    };
    (0..digits.len()).step_by(2).map(pair).collect()
}

/// The run of a line: `value` and `Spent` with what stands after them.
fn run(first: &str, rest: &str) -> Result<Run, String> {
    let (second, after) = rest.split_once(' ').unwrap_or((rest, ""));
    let (outcome, rest) = match first {
        "value" => (Outcome::Value(decimal(second)?), after),
        "arith" => (Outcome::Arith, rest),
        "abort" => (Outcome::Abort, rest),
        "Spent" => (Outcome::Spent, rest),
        "Full" => (Outcome::Full, rest),
        _ => return Err(format!("{first} is no outcome")),
    };
    let (steps, rest) = rest.split_once(' ').unwrap_or((rest, ""));
    Ok(Run { outcome, steps: decimal(steps)?, changes: changes(rest)? })
}

/// The changes of a line.
fn changes(rest: &str) -> Result<Vec<Change>, String> {
    rest.split(' ').filter(|change| !change.is_empty()).map(change).collect()
}

/// A change inside the image.
fn change(text: &str) -> Result<Change, String> {
    let (place, words) = text.split_once(':').ok_or(format!("{text} has no place"))?;
    let place: usize = decimal(place)?;
    let words: Vec<u32> = words.split(',').map(hex).collect::<Result<_, _>>()?;
    if place >= WORDS || WORDS - place < words.len() {
        return Err(format!("{text} is outside the image"));
    }
    Ok((place, words))
}
