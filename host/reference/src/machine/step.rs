//! The rules of the source document, one step each, without limits.

use super::operators::apply;
use super::program::{Expr, Program, Stmt};
use super::state::{Activation, Control, Frame, Ref, Running, State, Value};

/// The rules by name.
#[derive(Clone, Copy, PartialEq, Eq, Debug)]
pub enum Rule {
    OpFirst,
    OpSecond,
    OpValue,
    OpArith,
    AndFirst,
    AndFalse,
    AndTrue,
    Var,
    Seq,
    Nop,
    Assign,
    Store,
    Decl,
    Assert,
    AssertTrue,
    AssertFalse,
    If,
    IfTrue,
    IfFalse,
    While,
    Expr,
    Discard,
    CallFirst,
    CallNext,
    CallEnter,
    CallNone,
    Return,
    Leave,
    Value,
}

/// The number of rules.
pub const RULES: usize = Rule::Value as usize + 1;

/// What a rule makes of a running state: the same one changed, or another kind of state.
enum Moved {
    On(Rule),
    To(Rule, State),
}

/// Takes the one step that a rule gives; none, and no change, where no rule applies.
pub fn step(program: &Program, state: &mut State) -> Option<Rule> {
    match state {
        State::Value(_) | State::Arith | State::Abort => None,
        State::Returned(c) => {
            *state = State::Value(*c);
            Some(Rule::Value)
        }
        State::Main => {
            let control = Control::Stmt(program.functions[0].body);
            let activations = vec![entered(program, 0, Vec::new())];
            *state = State::Running(Running { control, activations });
            Some(Rule::CallNone)
        }
        State::Running(running) => match running.step(program)? {
            Moved::On(rule) => Some(rule),
            Moved::To(rule, next) => {
                *state = next;
                Some(rule)
            }
        },
    }
}

/// A function just entered: the parameters hold the arguments, the other variables nothing.
fn entered(program: &Program, function: usize, arguments: Vec<Value>) -> Activation {
    let mut vars = arguments;
    vars.resize(program.functions[function].vars.len(), Value::Nothing);
    Activation { function, vars, frames: Vec::new() }
}

impl Running {
    /// The step of a running state.
    fn step(&mut self, program: &Program) -> Option<Moved> {
        match self.control {
            Control::Value(value) => self.give(program, value),
            Control::Expr(node) => self.evaluate(program, node).map(Moved::On),
            Control::Stmt(reference) => self.execute(program, reference).map(Moved::On),
        }
    }

    /// Makes an expression the control: a constant at once as its value.
    fn reach(&mut self, program: &Program, node: u32) -> Option<()> {
        let function = self.activations.last()?.function;
        self.control = match program.functions[function].expr(node)? {
            Expr::Const(value) => Control::Value(*value),
            _ => Control::Expr(node),
        };
        Some(())
    }

    /// Lets a frame wait while an expression is evaluated.
    fn push(&mut self, program: &Program, frame: Frame, node: u32, rule: Rule) -> Option<Rule> {
        self.activations.last_mut()?.frames.push(frame);
        self.reach(program, node)?;
        Some(rule)
    }

    /// Enters a function over the current activation.
    fn enter(&mut self, program: &Program, callee: usize, arguments: Vec<Value>) {
        self.activations.push(entered(program, callee, arguments));
        self.control = Control::Stmt(program.functions[callee].body);
    }

    /// The step of an expression that is no constant.
    fn evaluate(&mut self, program: &Program, node: u32) -> Option<Rule> {
        let current = self.activations.last()?;
        match program.functions[current.function].expr(node)? {
            Expr::Const(_) => None,
            Expr::Var(x) => {
                self.control = Control::Value(*current.vars.get(*x as usize)?);
                Some(Rule::Var)
            }
            Expr::Op(op, left, right) => {
                let frame = Frame::First { op: *op, right: *right };
                self.push(program, frame, *left, Rule::OpFirst)
            }
            Expr::And(left, right) => self.push(program, Frame::And(*right), *left, Rule::AndFirst),
            Expr::Call(callee, arguments) => match arguments.split_first() {
                None => {
                    self.enter(program, *callee, Vec::new());
                    Some(Rule::CallNone)
                }
                Some((first, rest)) => {
                    let (callee, rest) = (*callee, rest.to_vec());
                    let frame = Frame::Call { callee, done: Vec::new(), rest };
                    self.push(program, frame, *first, Rule::CallFirst)
                }
            },
        }
    }

    /// The step of a statement.
    fn execute(&mut self, program: &Program, reference: Ref) -> Option<Rule> {
        let current = self.activations.last_mut()?;
        match program.functions[current.function].stmt(reference)? {
            Stmt::Nop => match current.frames.last() {
                Some(&Frame::Stmt(next)) => {
                    current.frames.pop();
                    self.control = Control::Stmt(next);
                    Some(Rule::Nop)
                }
                _ => None,
            },
            Stmt::Seq(first, second) => {
                current.frames.push(Frame::Stmt(second));
                self.control = Control::Stmt(first);
                Some(Rule::Seq)
            }
            Stmt::Decl(x, statement) => {
                *current.vars.get_mut(x as usize)? = Value::Nothing;
                self.control = Control::Stmt(statement);
                Some(Rule::Decl)
            }
            Stmt::While(..) => match reference {
                Ref::Node(node) => {
                    self.control = Control::Stmt(Ref::IfOf(node));
                    Some(Rule::While)
                }
                _ => None,
            },
            Stmt::If(e, s, t) => self.push(program, Frame::If(s, t), e, Rule::If),
            Stmt::Assign(x, e) => self.push(program, Frame::Assign(x), e, Rule::Assign),
            Stmt::Return(e) => self.push(program, Frame::Return, e, Rule::Return),
            Stmt::Assert(e) => self.push(program, Frame::Assert, e, Rule::Assert),
            Stmt::Discard(e) => self.push(program, Frame::Discard, e, Rule::Expr),
        }
    }

    /// A statement ends: nop is executed next.
    fn done(&mut self, rule: Rule) -> Option<Moved> {
        self.control = Control::Stmt(Ref::Nop);
        Some(Moved::On(rule))
    }

    /// A branch is taken.
    fn branch(&mut self, to: Ref, rule: Rule) -> Option<Moved> {
        self.control = Control::Stmt(to);
        Some(Moved::On(rule))
    }

    /// The step that gives a value to the top frame.
    fn give(&mut self, program: &Program, value: Value) -> Option<Moved> {
        let current = self.activations.last_mut()?;
        match (current.frames.pop()?, value) {
            (Frame::First { op, right }, Value::Int(left)) => {
                let frame = Frame::Second { op, left };
                self.push(program, frame, right, Rule::OpSecond).map(Moved::On)
            }
            (Frame::Second { op, left }, Value::Int(right)) => {
                let Some(result) = apply(program.edition, op, left, right) else {
                    return Some(Moved::To(Rule::OpArith, State::Arith));
                };
                self.control = Control::Value(result);
                Some(Moved::On(Rule::OpValue))
            }
            (Frame::And(_), Value::Bool(false)) => Some(Moved::On(Rule::AndFalse)),
            (Frame::And(right), Value::Bool(true)) => {
                self.reach(program, right)?;
                Some(Moved::On(Rule::AndTrue))
            }
            (Frame::Call { callee, done, rest }, _) => {
                Some(Moved::On(self.argument(program, callee, done, rest, value)?))
            }
            (Frame::Assign(x), _) => {
                *current.vars.get_mut(x as usize)? = value;
                self.done(Rule::Store)
            }
            (Frame::If(s, _), Value::Bool(true)) => self.branch(s, Rule::IfTrue),
            (Frame::If(_, t), Value::Bool(false)) => self.branch(t, Rule::IfFalse),
            (Frame::Assert, Value::Bool(true)) => self.done(Rule::AssertTrue),
            (Frame::Assert, Value::Bool(false)) => Some(Moved::To(Rule::AssertFalse, State::Abort)),
            (Frame::Discard, _) => self.done(Rule::Discard),
            (Frame::Return, _) => self.leave(value),
            (frame, _) => {
                current.frames.push(frame);
                None
            }
        }
    }

    /// An argument is done: the next one is evaluated, or the callee entered.
    fn argument(
        &mut self,
        program: &Program,
        callee: usize,
        mut done: Vec<Value>,
        rest: Vec<u32>,
        value: Value,
    ) -> Option<Rule> {
        done.push(value);
        match rest.split_first() {
            None => {
                self.enter(program, callee, done);
                Some(Rule::CallEnter)
            }
            Some((next, rest)) => {
                let frame = Frame::Call { callee, done, rest: rest.to_vec() };
                self.push(program, frame, *next, Rule::CallNext)
            }
        }
    }

    /// Leaves the current activation with a value, and all its frames with it.
    fn leave(&mut self, value: Value) -> Option<Moved> {
        match (self.activations.len(), value) {
            (1, Value::Int(c)) => Some(Moved::To(Rule::Leave, State::Returned(c))),
            (1, _) => {
                self.activations.last_mut()?.frames.push(Frame::Return);
                None
            }
            _ => {
                self.activations.pop();
                self.control = Control::Value(value);
                Some(Moved::On(Rule::Leave))
            }
        }
    }
}
