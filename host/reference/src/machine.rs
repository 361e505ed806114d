//! The machine of the paper: its states, its rules, its limits and its runs.

pub mod operators;
pub mod program;
pub mod run;
pub mod state;
pub mod step;

pub use program::Program;
pub use run::{look_up, run, Outcome};
pub use state::{Activation, Control, Frame, Ref, Running, State, Type, Value};
pub use step::{step, Rule};
