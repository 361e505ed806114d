//! Values, frames, activations and states.

/// The types of values.
#[derive(Clone, Copy, PartialEq, Eq, Debug)]
pub enum Type {
    Nothing,
    Int,
    Bool,
}

/// A value, or what a variable without one holds.
#[derive(Clone, Copy, PartialEq, Eq, Debug)]
pub enum Value {
    Nothing,
    Int(i32),
    Bool(bool),
}

impl Value {
    /// The value's type.
    pub fn ty(self) -> Type {
        match self {
            Value::Nothing => Type::Nothing,
            Value::Int(_) => Type::Int,
            Value::Bool(_) => Type::Bool,
        }
    }
}

/// A statement: the one nop, a statement's node, or the if or the seq of the while at a node.
#[derive(Clone, Copy, PartialEq, Eq, Debug)]
pub enum Ref {
    Nop,
    Node(u32),
    IfOf(u32),
    SeqOf(u32),
}

/// What is evaluated or executed next.
#[derive(Clone, Copy, PartialEq, Eq, Debug)]
pub enum Control {
    Value(Value),
    Expr(u32),
    Stmt(Ref),
}

/// What waits for a value or for the end of a statement; nodes are numbered in their function.
#[derive(Clone, PartialEq, Eq, Debug)]
pub enum Frame {
    /// `_ ⊙ e`
    First { op: u8, right: u32 },
    /// `c ⊙ _`
    Second { op: u8, left: i32 },
    /// `_ && e`
    And(u32),
    /// `f(c.., _, e..)`
    Call { callee: usize, done: Vec<Value>, rest: Vec<u32> },
    /// A waiting statement.
    Stmt(Ref),
    /// `assign(x, _)`
    Assign(u32),
    /// `if(_, s, t)`
    If(Ref, Ref),
    /// `return(_)`
    Return,
    /// `assert(_)`
    Assert,
    /// discard
    Discard,
}

/// A function that has been entered, with its frames from the bottom to the top.
#[derive(Clone, PartialEq, Eq, Debug)]
pub struct Activation {
    pub function: usize,
    pub vars: Vec<Value>,
    pub frames: Vec<Frame>,
}

/// Main or a function under it runs; the last activation is the current one.
#[derive(Clone, PartialEq, Eq, Debug)]
pub struct Running {
    pub control: Control,
    pub activations: Vec<Activation>,
}

/// A state of the machine.
#[derive(Clone, PartialEq, Eq, Debug)]
pub enum State {
    /// `main()` with nothing waiting.
    Main,
    Running(Running),
    /// An int with no callers and no frames.
    Returned(i32),
    Value(i32),
    Arith,
    Abort,
}
