//! The endless programs, and runs of them on one side.

use generators::endless::{Program, ALL, CALLS};
use generators::File;
use reference::image::WORDS;
use reference::machine::Outcome;
use tests::machine::Entries;
use tests::report::shown;

/// The steps after which a program has long been in its loop.
pub const REACHED: u64 = 1_000;

/// Whether the earlier release knows the edition of a file.
#[cfg(feature = "before")]
pub fn is_known(file: &File) -> bool {
    !matches!(tests::before::check(&file.bytes()), Some((2, ..)))
}

/// Every edition is known where no earlier release is linked.
#[cfg(not(feature = "before"))]
fn is_known(_: &File) -> bool {
    true
}

/// The endless programs of known editions: the calls by the number of their arguments, then the others.
pub fn programs() -> Vec<Program> {
    let is_call = |name: &str| CALLS.iter().any(|(call, _)| *call == name);
    let others = ALL.into_iter().filter(|(name, _)| !is_call(name));
    CALLS.into_iter().chain(others).filter(|(_, make)| is_known(&make())).collect()
}

/// The file of a program by its name or its number.
fn file(asked: &str) -> Result<Vec<u8>, String> {
    let number = asked.parse().ok();
    let found = |(at, (name, _)): &(usize, Program)| *name == asked || Some(*at) == number;
    let program = programs().into_iter().enumerate().find(found);
    program.map(|(_, (_, make))| make().bytes()).ok_or(format!("no program {asked}"))
}

/// Starts a program and runs it for each of these numbers of steps; gives the memory.
pub fn after(side: &Entries, file: &[u8], runs: &[u64]) -> Result<Vec<u32>, String> {
    let mut memory = vec![0; WORDS];
    if let Some(refusal) = (side.start)(file, &mut memory) {
        return Err(shown(Some(refusal)));
    }
    for &steps in runs {
        let answer = (side.run)(file, &mut memory, steps);
        if answer != Ok((Outcome::Spent, steps)) {
            return Err(format!("a run of {steps} steps answered {answer:?}"));
        }
    }
    Ok(memory)
}

/// Takes a program into its loop and so many steps further, for a count of instructions.
pub fn run(side: &Entries, program: &str, steps: &str) -> Result<bool, String> {
    let steps = steps.parse().map_err(|_| format!("{steps} is no number of steps"))?;
    after(side, &file(program)?, &[REACHED, steps]).map(|_| true)
}
