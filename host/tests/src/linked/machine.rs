//! A linked library's run, memory check and look-up.

use super::answer;
use crate::machine::{LookAnswer, RunAnswer};
use reference::machine::{Outcome, Value};

/// A word of an answer that no call leaves.
pub(crate) const UNSET: u64 = u64::MAX;

/// A run's answer of its number and its words: outcome, int and steps.
pub(crate) fn run_answer(number: u64, told: [u64; 3]) -> RunAnswer {
    match answer(number) {
        Some(refusal) => Err(refusal),
        None => Ok((outcome(told[0], told[1]), told[2])),
    }
}

/// The outcome of its number and its word.
pub(crate) fn outcome(number: u64, word: u64) -> Outcome {
    match (number, u32::try_from(word)) {
        (0, Ok(c)) => Outcome::Value(c as i32),
        (1, Ok(0)) => Outcome::Arith,
        (2, Ok(0)) => Outcome::Abort,
        (3, Ok(0)) => Outcome::Spent,
        (4, Ok(0)) => Outcome::Full,
        (5, Ok(0)) => Outcome::LogFull,
        _ => panic!("no outcome has the numbers {number} and {word}"),
    }
}

/// A look-up's answer of its number and its words: type and word.
pub(crate) fn look_answer(number: u64, told: [u64; 2]) -> LookAnswer {
    match (answer(number), told) {
        (Some(refusal), _) => Err(refusal),
        (None, [0, 0]) => Ok(Value::Nothing),
        (None, [1, word]) if word < 1 << 32 => Ok(Value::Int(word as u32 as i32)),
        (None, [2, word]) if word < 2 => Ok(Value::Bool(word == 1)),
        (None, told) => panic!("no value has the numbers {told:?}"),
    }
}

/// The items that a module of a linked library has with the feature `machine`.
macro_rules! linked_machine {
    ($module:ident, $prefix:literal) => {
        use crate::linked::machine::{look_answer, run_answer, UNSET};
        use crate::machine::{Entries, LookAnswer, RunAnswer};

        extern "C" {
            /// 0 where the memory holds the image of a fit state, else the packed refusal.
            #[link_name = concat!($prefix, "panelrue_memory_check")]
            pub fn panelrue_memory_check(
                file: *const u8,
                len: usize,
                memory: *const u32,
                words: usize,
            ) -> u64;
            /// 0 with outcome, int and steps in the answer, else the packed refusal.
            #[link_name = concat!($prefix, "panelrue_run")]
            pub fn panelrue_run(
                file: *const u8,
                len: usize,
                memory: *mut u32,
                words: usize,
                allowance: u64,
                answer: *mut u64,
                room: usize,
            ) -> u64;
            /// 0 with the type and the word in the answer, else the packed refusal.
            #[link_name = concat!($prefix, "panelrue_look_up")]
            pub fn panelrue_look_up(
                file: *const u8,
                len: usize,
                memory: *const u32,
                words: usize,
                variable: u32,
                answer: *mut u64,
                room: usize,
            ) -> u64;
        }

        /// The entry points under the module's name.
        pub const ENTRIES: Entries = Entries {
            name: stringify!($module),
            start,
            run,
            memory_check,
            look_up,
            run_logged,
            step_back,
        };

        /// The memory check's answer.
        pub fn memory_check(file: &[u8], memory: &[u32]) -> Answer {
            // The pointers and lengths are those of slices that live through the call.
            answer(unsafe {
                panelrue_memory_check(file.as_ptr(), file.len(), memory.as_ptr(), memory.len())
            })
        }

        /// The run's answer.
        pub fn run(file: &[u8], memory: &mut [u32], allowance: u64) -> RunAnswer {
            let mut told = [UNSET; 3];
            // The pointers and lengths are those of slices that live through the call, and memory and answer are lent to it alone.
            let number = unsafe {
                panelrue_run(
                    file.as_ptr(),
                    file.len(),
                    memory.as_mut_ptr(),
                    memory.len(),
                    allowance,
                    told.as_mut_ptr(),
                    told.len(),
                )
            };
            run_answer(number, told)
        }

        /// The look-up's answer.
        pub fn look_up(file: &[u8], memory: &[u32], variable: u32) -> LookAnswer {
            let mut told = [UNSET; 2];
            // The pointers and lengths are those of slices that live through the call, and the answer is lent to it alone.
            let number = unsafe {
                panelrue_look_up(
                    file.as_ptr(),
                    file.len(),
                    memory.as_ptr(),
                    memory.len(),
                    variable,
                    told.as_mut_ptr(),
                    told.len(),
                )
            };
            look_answer(number, told)
        }
    };
}
pub(crate) use linked_machine;
