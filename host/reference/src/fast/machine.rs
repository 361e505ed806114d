//! The entry points written for speed: they read the file's records and change the lent words in place.

mod code;
mod fit;
mod flow;
mod give;
mod log;
mod run;

use crate::calls::Logged;
use crate::image::WORDS;
use crate::machine::{Outcome, Value};
use crate::Refusal;
use code::Code;

/// The words of an image.
type Words = [u32; WORDS];

/// Questions 1 to 15: the file's records and the memory's first words.
fn opened<'a, 'b>(file: &'a [u8], memory: &'b [u32]) -> Result<(Code<'a>, &'b Words), Refusal> {
    if let Some(refusal) = super::check(file) {
        return Err(refusal);
    }
    match memory.first_chunk() {
        Some(words) => Ok((Code::new(file), words)),
        None => Err((15, 0, 0)),
    }
}

/// Questions 1 to 16: the file's records.
fn fit<'a>(file: &'a [u8], memory: &[u32]) -> Result<Code<'a>, Refusal> {
    let (code, words) = opened(file, memory)?;
    if fit::is_fit(&code, words) {
        Ok(code)
    } else {
        Err((16, 0, 0))
    }
}

/// Writes main() over the memory.
pub fn start(file: &[u8], memory: &mut [u32]) -> Option<Refusal> {
    if let Err(refusal) = opened(file, memory) {
        return Some(refusal);
    }
    memory[..WORDS].fill(0);
    memory[0] = 1;
    None
}

/// Whether the memory holds the image of a fit state.
pub fn memory_check(file: &[u8], memory: &[u32]) -> Option<Refusal> {
    fit(file, memory).err()
}

/// Runs the state in the memory on.
pub fn run(file: &[u8], memory: &mut [u32], allowance: u64) -> Result<(Outcome, u64), Refusal> {
    let code = fit(file, memory)?;
    let words: &mut Words = memory.first_chunk_mut().ok_or((15, 0, 0))?;
    Ok(run::run(&code, words, allowance))
}

/// The variable of the current activation.
pub fn look_up(file: &[u8], memory: &[u32], variable: u32) -> Result<Value, Refusal> {
    fit(file, memory)?;
    if memory[0] != 2 {
        return Err((17, 0, 0));
    }
    let activation = code::activation(memory[2] as usize - 1);
    if variable >= memory[activation + 2] {
        return Err((17, 0, 0));
    }
    let at = code::variable(activation, variable as usize);
    Ok(match memory[at] {
        0 => Value::Nothing,
        1 => Value::Int(memory[at + 1] as i32),
        _ => Value::Bool(memory[at + 1] == 1),
    })
}

/// Runs the state in the memory on, with a record of each step after the used length of the log.
pub fn run_logged(
    file: &[u8],
    memory: &mut [u32],
    allowance: u64,
    log: &mut [u8],
    used: u64,
) -> Result<Logged, Refusal> {
    let code = fit(file, memory)?;
    let words: &mut Words = memory.first_chunk_mut().ok_or((15, 0, 0))?;
    Ok(log::run_logged(&code, words, allowance, log, used))
}

/// Takes the state in the memory back by the log's last record and gives the used length before that record.
pub fn step_back(file: &[u8], memory: &mut [u32], log: &[u8], used: u64) -> Result<u64, Refusal> {
    let code = fit(file, memory)?;
    let words: &mut Words = memory.first_chunk_mut().ok_or((15, 0, 0))?;
    log::step_back(&code, words, log, used).ok_or((18, 0, 0))
}
