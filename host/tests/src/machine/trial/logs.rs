//! Logged runs and steps back of a memory under test, with the log that is lent to them.

use super::Trial;
use crate::Answer;
use reference::calls::Logged;
use reference::log;

impl Trial<'_> {
    /// Lends a log with a used length.
    pub fn lend(&mut self, log: Vec<u8>, used: u64) {
        self.expected_log.clone_from(&log);
        (self.log, self.used) = (log, used);
    }

    /// Changes the log in between, as its host may.
    pub fn change_log(&mut self, change: impl FnOnce(&mut Vec<u8>)) {
        change(&mut self.log);
        self.expected_log.clone_from(&self.log);
    }

    /// Compares every byte of the log with what it must be.
    pub(super) fn log_holds(&mut self, call: &str) {
        let name = || format!("{}, log after {call}", self.label);
        self.outcome.words(name, &self.model.file, &self.expected_log, &self.log);
    }

    /// An accepted logged run; gives what the model says of it.
    pub fn run_logged(&mut self, allowance: u64) -> Logged {
        let (program, mut after) = (&self.model.judge.program, self.used);
        let (own, state) = (&mut self.expected_log, &mut self.state);
        let (end, steps) = log::run_logged(program, state, allowance, own, &mut after);
        let expected = (end, steps, after);
        let (file, used) = (&self.model.file, self.used);
        let got =
            (self.side.run_logged)(file, &mut self.memory, allowance, &mut self.log, self.used);
        let name = || format!("{}, logged run of {allowance} from {used}", self.label);
        self.outcome.same(name, file, Ok(expected), got);
        self.used = after;
        self.holds("a logged run");
        self.log_holds("a logged run");
        expected
    }

    /// A step back, refused 18 where the log leads to no state before this one; gives what it must be refused with.
    pub fn step_back(&mut self) -> Answer {
        let back = log::step_back(&self.model.judge, &self.state, &self.log, self.used);
        let expected = back.as_ref().map(|(_, used)| *used).ok_or((18, 0, 0));
        let (file, used) = (&self.model.file, self.used);
        let got = (self.side.step_back)(file, &mut self.memory, &self.log, used);
        let name = || format!("{}, step back from {used}", self.label);
        self.outcome.same(name, file, expected, got);
        if let Some((state, used)) = back {
            (self.state, self.used) = (state, used);
        }
        self.holds("a step back");
        self.log_holds("a step back");
        expected.err()
    }
}
