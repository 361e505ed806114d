//! The entry points: start, run, memory check, look-up, logged run and step back on lent memory.

use crate::fit::Judge;
use crate::image::{decode, encode, encode_into, WORDS};
use crate::machine::{self, Outcome, Program, State, Value};
use crate::{log, Refusal};

/// What a logged run answers: the outcome, the steps and the used length of the log.
pub type Logged = (Outcome, u64, u64);

/// Question 15.
fn long_enough(memory: &[u32]) -> Result<(), Refusal> {
    if memory.len() < WORDS {
        return Err((15, 0, 0));
    }
    Ok(())
}

/// The fit state whose image the memory's first words are, if there is one.
pub fn held(judge: &Judge, memory: &[u32]) -> Option<State> {
    let state = decode(memory)?;
    let fit = judge.is_fit(&state) && encode(&state)[..] == memory[..WORDS];
    fit.then_some(state)
}

/// Questions 1 to 16: the program with what judges its states, and the state.
fn loaded(file: &[u8], memory: &[u32]) -> Result<(Judge, State), Refusal> {
    let judge = Judge::new(Program::new(file)?);
    long_enough(memory)?;
    let state = held(&judge, memory).ok_or((16, 0, 0))?;
    Ok((judge, state))
}

/// Writes main() over the memory.
pub fn start(file: &[u8], memory: &mut [u32]) -> Option<Refusal> {
    let accepted = Program::new(file).and_then(|_| long_enough(memory));
    if accepted.is_ok() {
        encode_into(&State::Main, memory);
    }
    accepted.err()
}

/// Runs the state in the memory on.
pub fn run(file: &[u8], memory: &mut [u32], allowance: u64) -> Result<(Outcome, u64), Refusal> {
    let (judge, mut state) = loaded(file, memory)?;
    let answer = machine::run(&judge.program, &mut state, allowance);
    encode_into(&state, memory);
    Ok(answer)
}

/// Whether the memory holds the image of a fit state.
pub fn memory_check(file: &[u8], memory: &[u32]) -> Option<Refusal> {
    loaded(file, memory).err()
}

/// The variable of the current activation.
pub fn look_up(file: &[u8], memory: &[u32], variable: u32) -> Result<Value, Refusal> {
    let (_, state) = loaded(file, memory)?;
    machine::look_up(&state, variable).ok_or((17, 0, 0))
}

/// Runs the state in the memory on, with a record of each step after the used length of the log.
pub fn run_logged(
    file: &[u8],
    memory: &mut [u32],
    allowance: u64,
    log: &mut [u8],
    used: u64,
) -> Result<Logged, Refusal> {
    let (judge, mut state) = loaded(file, memory)?;
    let mut after = used;
    let (outcome, steps) = log::run_logged(&judge.program, &mut state, allowance, log, &mut after);
    encode_into(&state, memory);
    Ok((outcome, steps, after))
}

/// Takes the state in the memory back by the log's last record and gives the used length before that record.
pub fn step_back(file: &[u8], memory: &mut [u32], log: &[u8], used: u64) -> Result<u64, Refusal> {
    let (judge, state) = loaded(file, memory)?;
    let (earlier, used) = log::step_back(&judge, &state, log, used).ok_or((18, 0, 0))?;
    encode_into(&earlier, memory);
    Ok(used)
}
