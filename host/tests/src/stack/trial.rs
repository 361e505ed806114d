//! One call of an entry point, and what it needs of the stack.

use super::region::{Called, End, Region, ROOM, UNIT};
use crate::machine::{entries, Entries};
use crate::{proved, Answer};
use reference::fast;

/// The entry points.
#[derive(Clone, Copy)]
pub enum Entry {
    Check,
    Start,
    /// A run with an allowance.
    Run(u64),
    MemoryCheck,
    /// A look-up of a variable.
    LookUp(u32),
    /// A logged run with an allowance, from the beginning of the log.
    RunLogged(u64),
    /// A step back by the whole log.
    StepBack,
}

impl Entry {
    /// The column of a table.
    pub fn column(self) -> usize {
        match self {
            Entry::Check => 0,
            Entry::Start => 1,
            Entry::Run(_) => 2,
            Entry::MemoryCheck => 3,
            Entry::LookUp(_) => 4,
            Entry::RunLogged(_) => 5,
            Entry::StepBack => 6,
        }
    }
}

/// The names of the entry points, by column.
pub const NAMES: [&str; 7] =
    ["check", "start", "run", "memory check", "look-up", "logged run", "step back"];

/// The first column of an entry point that has a log.
pub const LOGGED: usize = 5;

/// What was measured of one call.
#[derive(Clone, Copy, PartialEq, Debug)]
pub struct Measured {
    /// The bytes down to the lowest word that it changed.
    pub written: usize,
    /// The least bytes in which it returns.
    pub needs: usize,
}

/// A call: an entry point, a file, a memory and a log.
#[derive(Clone)]
pub struct Trial<'a> {
    pub entry: Entry,
    pub file: &'a [u8],
    pub memory: &'a [u32],
    pub log: &'a [u8],
}

impl Trial<'_> {
    /// The C function with its words, of which it takes as many as it has arguments.
    fn called(&self, memory: &mut [u32], log: &mut [u8], told: &mut [u64; 4]) -> Called {
        let (file, length) = (self.file.as_ptr() as u64, self.file.len() as u64);
        let (words, count) = (memory.as_mut_ptr() as u64, memory.len() as u64);
        let (log, room, answer) =
            (log.as_mut_ptr() as u64, log.len() as u64, told.as_mut_ptr() as u64);
        let (function, more): (usize, &[u64]) = match self.entry {
            Entry::Check => (proved::panelrue_check as *const () as usize, &[0; 3]),
            Entry::Start => (proved::panelrue_start as *const () as usize, &[0; 3]),
            Entry::Run(allowance) => {
                (proved::panelrue_run as *const () as usize, &[allowance, answer, 3])
            }
            Entry::MemoryCheck => (proved::panelrue_memory_check as *const () as usize, &[0; 3]),
            Entry::LookUp(variable) => {
                (proved::panelrue_look_up as *const () as usize, &[variable.into(), answer, 2])
            }
            Entry::RunLogged(allowance) => (
                proved::panelrue_run_logged as *const () as usize,
                &[allowance, log, room, 0, answer, 4],
            ),
            Entry::StepBack => {
                (proved::panelrue_step_back as *const () as usize, &[log, room, room, answer, 1])
            }
        };
        let mut all = [file, length, words, count, 0, 0, 0, 0, 0, 0];
        all[4..4 + more.len()].copy_from_slice(more);
        Called { function, words: all, count: 4 + more.len() }
    }

    /// What a side answers, with this check.
    fn asked(&self, side: &Entries, check: fn(&[u8]) -> Answer) -> Answer {
        let (file, mut memory, mut log) = (self.file, self.memory.to_vec(), self.log.to_vec());
        match self.entry {
            Entry::Check => check(file),
            Entry::Start => (side.start)(file, &mut memory),
            Entry::Run(allowance) => (side.run)(file, &mut memory, allowance).err(),
            Entry::MemoryCheck => (side.memory_check)(file, &memory),
            Entry::LookUp(variable) => (side.look_up)(file, &memory, variable).err(),
            Entry::RunLogged(allowance) => {
                (side.run_logged)(file, &mut memory, allowance, &mut log, 0).err()
            }
            Entry::StepBack => (side.step_back)(file, &mut memory, &log, log.len() as u64).err(),
        }
    }

    /// What plain Rust answers.
    pub fn expected(&self) -> Answer {
        self.asked(&entries()[1], fast::check)
    }

    /// What the proved function answers on the stack of this thread.
    pub fn answered(&self) -> Answer {
        self.asked(&proved::ENTRIES, proved::check)
    }

    /// The answer with what the call needs of the stack, by both ways of measuring.
    pub fn measured(&self, region: &mut Region) -> (Answer, Measured) {
        let (mut memory, mut log, mut told) = (self.memory.to_vec(), self.log.to_vec(), [0; 4]);
        let called = self.called(&mut memory, &mut log, &mut told);
        let (answer, measured) =
            measured(region, &called, &mut || memory.copy_from_slice(self.memory));
        (crate::linked::answer(answer), measured)
    }
}

/// A call's answer and what it needs of the stack; what it changes elsewhere is put back before it is made again.
pub fn measured(
    region: &mut Region,
    called: &Called,
    put_back: &mut dyn FnMut(),
) -> (u64, Measured) {
    let (answer, written) = region.painted(called);
    put_back();
    let needs = least(written.next_multiple_of(UNIT), |bytes| {
        match region.cut_off(bytes, called, answer) {
            End::Same => true,
            End::Killed => false,
            End::Other => panic!("another answer on a stack that is cut off"),
        }
    });
    (answer, Measured { written, needs })
}

/// The least bytes, these or more, in which a call returns: most often these, else found by doubling and halving what is added.
fn least(written: usize, mut returns: impl FnMut(usize) -> bool) -> usize {
    if returns(written) {
        return written;
    }
    let (mut short, mut more) = (0, UNIT);
    while !returns((written + more).min(ROOM)) {
        assert!(written + more < ROOM, "a call does not return in {ROOM} bytes");
        (short, more) = (more, 2 * more);
    }
    while more - short > UNIT {
        let half = (short + (more - short) / 2).next_multiple_of(UNIT);
        if returns((written + half).min(ROOM)) {
            more = half;
        } else {
            short = half;
        }
    }
    written + more
}
