//! Whether a state is fit for a program.

pub mod flow;

use crate::machine::program::{result_of, Expr, Function, Program};
use crate::machine::state::{Activation, Control, Frame, Ref, Running, State, Type, Value};
use flow::{Flow, Flows, Set};

/// What stands on top of frames: something that gives a value of a type, or gives none.
#[derive(Clone, Copy, PartialEq)]
enum Gives {
    Value(Type),
    None,
}

/// A program with the tables that fitness needs.
pub struct Judge {
    pub program: Program,
    flows: Vec<Flows>,
}

/// One activation under judgement.
struct Part<'a> {
    program: &'a Program,
    function: &'a Function,
    flows: &'a Flows,
    activation: &'a Activation,
}

impl Judge {
    /// The tables of a program.
    pub fn new(program: Program) -> Judge {
        let flows = program.functions.iter().map(Flows::new).collect();
        Judge { program, flows }
    }

    /// Whether the state is fit.
    pub fn is_fit(&self, state: &State) -> bool {
        match state {
            State::Running(running) => state.within_limits() && self.running_fit(running),
            _ => true,
        }
    }

    /// The conditions on a running state, but for the limits.
    fn running_fit(&self, running: &Running) -> bool {
        let Some((current, callers)) = running.activations.split_last() else { return false };
        let known = |a: &Activation| a.function < self.program.functions.len();
        if running.activations[0].function != 0 || !running.activations.iter().all(known) {
            return false;
        }
        let wanted = callers.iter().zip(&running.activations[1..]).all(|(caller, callee)| {
            let result = self.program.functions[callee.function].result;
            self.part(caller).caller_fit(result)
        });
        wanted && self.part(current).current_fit(running.control)
    }

    /// An activation with its function.
    fn part<'a>(&'a self, activation: &'a Activation) -> Part<'a> {
        let function = &self.program.functions[activation.function];
        let flows = &self.flows[activation.function];
        Part { program: &self.program, function, flows, activation }
    }
}

impl Part<'_> {
    /// A saved caller that gets its callee's result.
    fn caller_fit(&self, result: Type) -> bool {
        self.rest_fit(Gives::Value(result), self.frames_flow(Flow::reads(0)))
    }

    /// The current activation with the control.
    fn current_fit(&self, control: Control) -> bool {
        let (gives, flow) = match control {
            Control::Value(value) => (Gives::Value(value.ty()), Some(Flow::reads(0))),
            Control::Expr(node) => match self.function.expr(node) {
                None | Some(Expr::Const(_)) => return false,
                Some(e) => {
                    (Gives::Value(self.type_of(e)), Some(Flow::reads(self.flows.reads(node))))
                }
            },
            Control::Stmt(reference) => (Gives::None, self.stmt_flow(reference)),
        };
        self.rest_fit(gives, flow.and_then(|flow| self.frames_flow(flow)))
    }

    /// Variables, types of frames, and the flow through everything to come.
    fn rest_fit(&self, gives: Gives, flow: Option<Flow>) -> bool {
        let Some(flow) = flow else { return false };
        self.vars_fit() && self.types_fit(gives) && flow.accepts(self.held()) && flow.returns
    }

    /// Whether there are as many variables as the function has and held ones have their types.
    fn vars_fit(&self) -> bool {
        let (vars, types) = (&self.activation.vars, &self.function.vars);
        let typed = |(v, ty): (&Value, &Type)| *v == Value::Nothing || v.ty() == *ty;
        vars.len() == types.len() && vars.iter().zip(types).all(typed)
    }

    /// The variables that hold values.
    fn held(&self) -> Set {
        let vars = self.activation.vars.iter().enumerate();
        vars.filter(|(_, v)| **v != Value::Nothing).fold(0, |set, (x, _)| set | 1 << x)
    }

    /// Whether each frame, from the top, gets what it wants.
    fn types_fit(&self, control: Gives) -> bool {
        let frames = self.activation.frames.iter().rev();
        let mut given = Some(control);
        for frame in frames {
            given = given.and_then(|gives| self.frame_gives(gives, frame));
        }
        given == Some(Gives::None)
    }

    /// What a frame gives; none if it does not get what it wants or holds something wrong.
    fn frame_gives(&self, given: Gives, frame: &Frame) -> Option<Gives> {
        let gets = |want: Type| given == Gives::Value(want);
        let has = |node: u32, want: Type| {
            self.function.expr(node).is_some_and(|e| self.type_of(e) == want)
        };
        let is_stmt = |reference: Ref| self.function.stmt(reference).is_some();
        let (right, gives) = match frame {
            Frame::First { op, right } => (
                gets(Type::Int) && has(*right, Type::Int) && *op < 16,
                Gives::Value(result_of(*op)),
            ),
            Frame::Second { op, .. } => (gets(Type::Int) && *op < 16, Gives::Value(result_of(*op))),
            Frame::And(right) => {
                (gets(Type::Bool) && has(*right, Type::Bool), Gives::Value(Type::Bool))
            }
            Frame::Call { callee, done, rest } => {
                let callee = self.program.functions.get(*callee)?;
                (self.call_fit(given, callee, done, rest), Gives::Value(callee.result))
            }
            Frame::Stmt(s) => (given == Gives::None && is_stmt(*s), Gives::None),
            Frame::Assign(x) => (gets(*self.function.vars.get(*x as usize)?), Gives::None),
            Frame::If(s, t) => (gets(Type::Bool) && is_stmt(*s) && is_stmt(*t), Gives::None),
            Frame::Return => (gets(self.function.result), Gives::None),
            Frame::Assert => (gets(Type::Bool), Gives::None),
            Frame::Discard => (given != Gives::None, Gives::None),
        };
        right.then_some(gives)
    }

    /// Whether a call's arguments, done, given and to come, are those of the callee's parameters.
    fn call_fit(&self, given: Gives, callee: &Function, done: &[Value], rest: &[u32]) -> bool {
        let Gives::Value(at_hand) = given else { return false };
        let mut types: Vec<Option<Type>> = done.iter().map(|v| Some(v.ty())).collect();
        types.push(Some(at_hand));
        types.extend(rest.iter().map(|&node| self.function.expr(node).map(|e| self.type_of(e))));
        let params = &callee.vars[..callee.params];
        types.len() == params.len() && types.iter().zip(params).all(|(t, p)| *t == Some(*p))
    }

    /// The type of an expression.
    fn type_of(&self, e: &Expr) -> Type {
        self.program.type_of(self.function, e)
    }

    /// The flow of a statement; none if it is none of this function's.
    fn stmt_flow(&self, reference: Ref) -> Option<Flow> {
        self.function.stmt(reference)?;
        Some(self.flows.stmt(self.function, reference))
    }

    /// The variables that an expression reads; none if it is none of this function's.
    fn reads(&self, node: u32) -> Option<Flow> {
        self.function.expr(node)?;
        Some(Flow::reads(self.flows.reads(node)))
    }

    /// The flow of the control and then of the frames from the top.
    fn frames_flow(&self, control: Flow) -> Option<Flow> {
        let mut flow = control;
        for frame in self.activation.frames.iter().rev() {
            flow = flow.then(self.frame_flow(frame)?);
        }
        Some(flow)
    }

    /// The flow of one frame.
    fn frame_flow(&self, frame: &Frame) -> Option<Flow> {
        match frame {
            Frame::First { right, .. } | Frame::And(right) => self.reads(*right),
            Frame::Call { rest, .. } => {
                let mut flow = Flow::reads(0);
                for &node in rest {
                    flow = flow.then(self.reads(node)?);
                }
                Some(flow)
            }
            Frame::Stmt(s) => self.stmt_flow(*s),
            Frame::If(s, t) => Some(self.stmt_flow(*s)?.or(self.stmt_flow(*t)?)),
            Frame::Assign(x) if *x < 64 => Some(Flow { adds: 1 << x, ..Flow::reads(0) }),
            Frame::Assign(_) => None,
            Frame::Return => Some(Flow::reads(0).returning(self.flows.all)),
            Frame::Second { .. } | Frame::Assert | Frame::Discard => Some(Flow::reads(0)),
        }
    }
}
