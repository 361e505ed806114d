//! One memory lent to one side's entry points, beside the state that it must hold.

mod logs;

use super::Entries;
use crate::report::{shown, Outcome};
use crate::{used, Answer, TAIL};
use generators::File;
use reference::fit::Judge;
use reference::image::{encode_into, WORDS};
use reference::machine::{look_up, run, Outcome as End, Program, State};

/// An accepted file with the reference's reading of it.
pub struct Model {
    pub file: Vec<u8>,
    pub judge: Judge,
}

impl Model {
    /// The model of a file, which must be accepted.
    pub fn new(file: &File) -> Model {
        let file = file.bytes();
        match Program::new(&file) {
            Ok(program) => Model { file, judge: Judge::new(program) },
            Err(refusal) => panic!("the file is {}", shown(Some(refusal))),
        }
    }

    /// The state after so many steps from the start, with its outcome and the steps taken.
    pub fn after(&self, steps: u64) -> (State, End, u64) {
        let mut state = State::Main;
        let (end, taken) = run(&self.judge.program, &mut state, steps);
        (state, end, taken)
    }
}

/// The calls on a memory by their numbers: start, run, memory check, look-up, logged run and step back.
pub const CALLS: usize = 6;

/// A memory and a log under test, and the state that the memory must hold.
pub struct Trial<'a> {
    pub side: &'a Entries,
    pub model: &'a Model,
    pub label: String,
    pub state: State,
    pub memory: Vec<u32>,
    /// What the memory must be.
    expected: Vec<u32>,
    pub log: Vec<u8>,
    /// What the log must be.
    expected_log: Vec<u8>,
    pub used: u64,
    pub outcome: Outcome,
}

impl<'a> Trial<'a> {
    /// A memory with the image of a state, and a log of no bytes.
    pub fn new(side: &'a Entries, model: &'a Model, label: String, state: State) -> Trial<'a> {
        let mut memory = used(WORDS + TAIL);
        encode_into(&state, &mut memory);
        let expected = memory.clone();
        let (log, expected_log, outcome) = (Vec::new(), Vec::new(), Outcome::default());
        Trial { side, model, label, state, memory, expected, log, expected_log, used: 0, outcome }
    }

    /// A memory of other content, on which the side starts the file.
    pub fn started(side: &'a Entries, model: &'a Model, label: String) -> Trial<'a> {
        let mut trial = Trial::new(side, model, label, State::Main);
        trial.memory[..WORDS].copy_from_slice(&used(WORDS));
        trial.start();
        trial
    }

    /// Compares the whole memory with what it must be.
    fn holds(&mut self, call: &str) {
        encode_into(&self.state, &mut self.expected);
        let name = || format!("{}, memory after {call}", self.label);
        self.outcome.words(name, &self.model.file, &self.expected, &self.memory);
    }

    /// An accepted start.
    pub fn start(&mut self) {
        self.state = State::Main;
        let got = (self.side.start)(&self.model.file, &mut self.memory);
        let name = || format!("{}, start", self.label);
        self.outcome.compare(name, &self.model.file, None, got);
        self.holds("start");
    }

    /// An accepted run; gives what the model says of it.
    pub fn run(&mut self, allowance: u64) -> (End, u64) {
        let expected = run(&self.model.judge.program, &mut self.state, allowance);
        let got = (self.side.run)(&self.model.file, &mut self.memory, allowance);
        let name = || format!("{}, run of {allowance}", self.label);
        self.outcome.same(name, &self.model.file, Ok(expected), got);
        self.holds("run");
        expected
    }

    /// An accepted memory check.
    pub fn memory_check(&mut self) {
        let got = (self.side.memory_check)(&self.model.file, &self.memory);
        let name = || format!("{}, memory check", self.label);
        self.outcome.compare(name, &self.model.file, None, got);
    }

    /// A look-up, refused 17 where the variable does not exist; gives what it must be refused with.
    pub fn look_up(&mut self, variable: u32) -> Answer {
        let expected = look_up(&self.state, variable).ok_or((17, 0, 0));
        let got = (self.side.look_up)(&self.model.file, &self.memory, variable);
        let name = || format!("{}, look-up of {variable}", self.label);
        self.outcome.same(name, &self.model.file, expected, got);
        expected.err()
    }

    /// One of the calls with a file that is refused or with the memory cut short; nothing may change.
    pub fn refused(&mut self, file: &[u8], words: usize, call: usize) -> Answer {
        let checked = reference::check(file);
        let expected = checked.or((words < WORDS).then_some((15, 0, 0)));
        self.refusal(file, words, call, expected);
        expected
    }

    /// One of the calls but start with another accepted file, if the memory is unfit for it, else a memory check.
    pub fn elsewhere(&mut self, file: &[u8], call: usize) -> Answer {
        let expected = reference::calls::memory_check(file, &self.memory);
        if expected.is_some() {
            self.refusal(file, self.memory.len(), call, expected);
        } else {
            self.memory_check();
        }
        expected
    }

    /// One of the calls that must be refused so; nothing may change.
    fn refusal(&mut self, file: &[u8], words: usize, call: usize, expected: Answer) {
        let memory = &mut self.memory[..words];
        let got = match call {
            0 => (self.side.start)(file, memory),
            1 => (self.side.run)(file, memory, 5).err(),
            2 => (self.side.memory_check)(file, memory),
            3 => (self.side.look_up)(file, memory, 0).err(),
            4 => (self.side.run_logged)(file, memory, 5, &mut self.log, self.used).err(),
            _ => (self.side.step_back)(file, memory, &self.log, self.used).err(),
        };
        let name = || format!("{}, refused call {call}", self.label);
        self.outcome.compare(name, file, expected, got);
        self.holds("a refusal");
        self.log_holds("a refusal");
    }
}
