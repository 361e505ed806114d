//! The check of procedure files, the machine and its entry points, written from the paper alone.

pub mod calls;
pub mod fast;
mod fields;
pub mod fit;
mod flow;
mod head;
pub mod image;
pub mod log;
pub mod machine;
mod record;
mod returns;
mod scope;
mod sorts;
mod tree;
mod types;

/// A refusal: the question's number, the place and the item.
pub type Refusal = (u8, u32, u32);

/// Puts questions 1 to 14 in order and gives the first refusal, or none if the file is accepted.
pub fn check(file: &[u8]) -> Option<Refusal> {
    judge(file).err()
}

/// Stops with the refusal of the first question that the file fails.
fn judge(file: &[u8]) -> Result<(), Refusal> {
    let program = head::parse(file)?;
    fields::question_7(&program)?;
    let forest = tree::question_8(&program)?;
    sorts::question_9(&program, &forest)?;
    scope::question_10(&program)?;
    scope::question_11(&program, &forest)?;
    types::question_12(&program, &forest)?;
    flow::question_13(&program, &forest)?;
    returns::question_14(&program, &forest)
}
