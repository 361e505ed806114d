//! Compares releases of the library on calls of 0 to 8 arguments and on other programs, step by step.

#[cfg(feature = "before")]
mod compare;
mod held;
mod read;
mod steps;
#[cfg(test)]
mod test;
#[cfg(feature = "before")]
mod times;
mod trace;

use generators::calls;
use std::process::ExitCode;
use tests::machine::{entries, Entries};

/// What the program can be asked.
const USAGE: &str = "\
releases held PATH                  holds the linked sides to a stored trace
releases trace [before]             prints the trace of this tree's library, or of the earlier release
releases compare                    compares both releases after every step
releases times                      prints the time of a step of both releases
releases programs                   prints the names of the endless programs
releases steps SIDE PROGRAM STEPS   runs one of them on `before` or `now`, 1,000 steps and these";

/// What is said where the earlier release is asked for and not linked.
#[cfg(not(feature = "before"))]
const ALONE: &str = "built without the feature `before`; `tests/releases` builds with it";

/// The library of this tree, or the earlier release, if it is linked.
fn release(name: &str) -> Result<Entries, String> {
    match name {
        "now" => entries().get(2).copied().ok_or("built without the feature `machine`".to_string()),
        #[cfg(feature = "before")]
        "before" => Ok(tests::before::ENTRIES),
        #[cfg(not(feature = "before"))]
        "before" => Err(ALONE.to_string()),
        _ => Err(USAGE.to_string()),
    }
}

/// Prints the trace of every program of calls.
fn print_trace(side: &Entries) -> Result<bool, String> {
    print!("{}", trace::HEADING);
    for (name, file) in calls::programs() {
        print!("{}", trace::taken(side, name, file.bytes())?);
    }
    Ok(true)
}

/// Prints the names of the endless programs.
fn print_programs() -> Result<bool, String> {
    steps::programs().iter().for_each(|(name, _)| println!("{name}"));
    Ok(true)
}

/// Does what the words ask and gives whether all was as it should be.
fn answer(words: &[&str]) -> Result<bool, String> {
    match words {
        ["held", path] => held::run(path),
        ["trace"] => print_trace(&release("now")?),
        ["trace", name] => print_trace(&release(name)?),
        #[cfg(feature = "before")]
        ["compare"] => compare::run(),
        #[cfg(feature = "before")]
        ["times"] => times::print(),
        #[cfg(not(feature = "before"))]
        ["compare" | "times"] => Err(ALONE.to_string()),
        ["programs"] => print_programs(),
        ["steps", name, program, count] => steps::run(&release(name)?, program, count),
        _ => Err(USAGE.to_string()),
    }
}

/// Fails where something differs or cannot be done.
fn main() -> ExitCode {
    let words: Vec<String> = std::env::args().skip(1).collect();
    let words: Vec<&str> = words.iter().map(String::as_str).collect();
    let passed = answer(&words).unwrap_or_else(|reason| {
        eprintln!("{reason}");
        false
    });
    ExitCode::from(u8::from(!passed))
}
