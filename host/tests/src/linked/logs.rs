//! A linked library's logged run and step back.

use super::answer;
use super::machine::outcome;
use crate::machine::{BackAnswer, LoggedAnswer};

/// A logged run's answer of its number and its words: outcome, int, steps and used length.
pub(crate) fn logged_answer(number: u64, told: [u64; 4]) -> LoggedAnswer {
    match answer(number) {
        Some(refusal) => Err(refusal),
        None => Ok((outcome(told[0], told[1]), told[2], told[3])),
    }
}

/// A step back's answer of its number and its word, the used length.
pub(crate) fn back_answer(number: u64, told: [u64; 1]) -> BackAnswer {
    match answer(number) {
        Some(refusal) => Err(refusal),
        None => Ok(told[0]),
    }
}

/// The items of logs that a module of a linked library has with the feature `machine`.
macro_rules! linked_logs {
    ($prefix:literal) => {
        use crate::linked::logs::{back_answer, logged_answer};
        use crate::machine::{BackAnswer, LoggedAnswer};

        extern "C" {
            /// 0 with outcome, int, steps and used length in the answer, else the packed refusal.
            #[link_name = concat!($prefix, "panelrue_run_logged")]
            pub fn panelrue_run_logged(
                file: *const u8,
                len: usize,
                memory: *mut u32,
                words: usize,
                allowance: u64,
                log: *mut u8,
                log_len: usize,
                used: u64,
                answer: *mut u64,
                room: usize,
            ) -> u64;
            /// 0 with the used length in the answer, else the packed refusal.
            #[link_name = concat!($prefix, "panelrue_step_back")]
            pub fn panelrue_step_back(
                file: *const u8,
                len: usize,
                memory: *mut u32,
                words: usize,
                log: *const u8,
                log_len: usize,
                used: u64,
                answer: *mut u64,
                room: usize,
            ) -> u64;
        }

        /// The logged run's answer.
        pub fn run_logged(
            file: &[u8],
            memory: &mut [u32],
            allowance: u64,
            log: &mut [u8],
            used: u64,
        ) -> LoggedAnswer {
            let mut told = [UNSET; 4];
            // The pointers and lengths are those of slices that live through the call, and memory, log and answer are lent to it alone.
            let number = unsafe {
                panelrue_run_logged(
                    file.as_ptr(),
                    file.len(),
                    memory.as_mut_ptr(),
                    memory.len(),
                    allowance,
                    log.as_mut_ptr(),
                    log.len(),
                    used,
                    told.as_mut_ptr(),
                    told.len(),
                )
            };
            logged_answer(number, told)
        }

        /// The step back's answer.
        pub fn step_back(file: &[u8], memory: &mut [u32], log: &[u8], used: u64) -> BackAnswer {
            let mut told = [UNSET; 1];
            // The pointers and lengths are those of slices that live through the call, and memory and answer are lent to it alone.
            let number = unsafe {
                panelrue_step_back(
                    file.as_ptr(),
                    file.len(),
                    memory.as_mut_ptr(),
                    memory.len(),
                    log.as_ptr(),
                    log.len(),
                    used,
                    told.as_mut_ptr(),
                    told.len(),
                )
            };
            back_answer(number, told)
        }
    };
}
pub(crate) use linked_logs;
