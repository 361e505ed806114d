//! Limits, runs and look-ups.

use super::program::Program;
use super::state::{Running, State, Value};
use super::step::{step, Rule};

/// The most saved callers, main's empty one included; each activation is entered over one.
pub const CALLERS: usize = 14;

/// The most waiting frames over all activations.
pub const FRAMES: usize = 512;

/// How a run stops.
#[derive(Clone, Copy, PartialEq, Eq, Debug)]
pub enum Outcome {
    Value(i32),
    Arith,
    Abort,
    Spent,
    Full,
    /// The next record does not fit into the log; a run without a log never stops so.
    LogFull,
}

impl Running {
    /// The waiting frames of all activations.
    pub fn frames(&self) -> usize {
        self.activations.iter().map(|activation| activation.frames.len()).sum()
    }

    /// Whether one more caller or frame would pass a limit.
    fn at_limit(&self) -> bool {
        self.activations.len() >= CALLERS || self.frames() >= FRAMES
    }
}

impl State {
    /// Whether the state keeps both limits.
    pub fn within_limits(&self) -> bool {
        match self {
            State::Running(r) => r.activations.len() <= CALLERS && r.frames() <= FRAMES,
            _ => true,
        }
    }

    /// The outcome of a final state.
    pub fn end(&self) -> Option<Outcome> {
        match self {
            State::Value(c) => Some(Outcome::Value(*c)),
            State::Arith => Some(Outcome::Arith),
            State::Abort => Some(Outcome::Abort),
            _ => None,
        }
    }
}

/// What came of an attempt at one step.
#[derive(Clone, Copy, PartialEq, Eq, Debug)]
pub enum Attempt {
    Stepped(Rule),
    /// The next state would pass a limit, so the state stands.
    Full,
    /// No rule applies.
    Stuck,
}

/// Takes one step unless the next state passes a limit.
pub fn attempt(program: &Program, state: &mut State) -> Attempt {
    let near = matches!(state, State::Running(r) if r.at_limit());
    if !near {
        return step(program, state).map_or(Attempt::Stuck, Attempt::Stepped);
    }
    let mut next = state.clone();
    match step(program, &mut next) {
        None => Attempt::Stuck,
        Some(_) if !next.within_limits() => Attempt::Full,
        Some(rule) => {
            *state = next;
            Attempt::Stepped(rule)
        }
    }
}

/// Runs a fit state on and gives the outcome with the steps taken.
pub fn run(program: &Program, state: &mut State, allowance: u64) -> (Outcome, u64) {
    let mut steps = 0;
    loop {
        if let Some(outcome) = state.end() {
            return (outcome, steps);
        }
        if steps == allowance {
            return (Outcome::Spent, steps);
        }
        match attempt(program, state) {
            Attempt::Stepped(_) => steps += 1,
            Attempt::Full => return (Outcome::Full, steps),
            Attempt::Stuck => unreachable!("no rule applies to {state:?}"),
        }
    }
}

/// The variable of the current activation; none where there is no such variable.
pub fn look_up(state: &State, variable: u32) -> Option<Value> {
    match state {
        State::Running(r) => r.activations.last()?.vars.get(variable as usize).copied(),
        _ => None,
    }
}
