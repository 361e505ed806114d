//! Random states, most of them fit and reached by no run.

use generators::rng::Rng;
use reference::machine::program::{Expr, Function, Node, Program, Stmt};
use reference::machine::{Activation, Control, Frame, Ref, Running, State, Type, Value};

/// A value of a type.
fn value(rng: &mut Rng, ty: Type) -> Value {
    match ty {
        Type::Nothing => Value::Nothing,
        Type::Int => Value::Int(rng.edge_word() as i32),
        Type::Bool => Value::Bool(rng.one_in(2)),
    }
}

/// The expressions and statements that a function's frames can name.
struct Names {
    exprs: [Vec<u32>; 3],
    stmts: Vec<Ref>,
}

impl Names {
    /// All names of a function.
    fn new(program: &Program, function: &Function) -> Names {
        let mut names = Names { exprs: Default::default(), stmts: vec![Ref::Nop] };
        for (i, node) in function.nodes.iter().enumerate() {
            let n = i as u32;
            match node {
                Node::Expr(e) => names.exprs[program.type_of(function, e) as usize].push(n),
                Node::Stmt(Stmt::Nop) => {}
                Node::Stmt(Stmt::While(..)) => {
                    names.stmts.extend([Ref::Node(n), Ref::IfOf(n), Ref::SeqOf(n)])
                }
                Node::Stmt(_) => names.stmts.push(Ref::Node(n)),
            }
        }
        names
    }

    /// A random statement.
    fn stmt(&self, rng: &mut Rng) -> Ref {
        rng.pick(&self.stmts).copied().unwrap_or(Ref::Nop)
    }

    /// A random expression of a type.
    fn expr(&self, rng: &mut Rng, ty: Type) -> Option<u32> {
        rng.pick(&self.exprs[ty as usize]).copied()
    }
}

/// Draws states of one program.
pub struct States<'a> {
    program: &'a Program,
    names: Vec<Names>,
}

impl<'a> States<'a> {
    /// The names of all functions.
    pub fn new(program: &'a Program) -> States<'a> {
        let names = program.functions.iter().map(|f| Names::new(program, f)).collect();
        States { program, names }
    }

    /// A random state.
    pub fn draw(&self, rng: &mut Rng) -> State {
        if rng.one_in(100) {
            let c = rng.edge_word() as i32;
            return match rng.below(5) {
                0 => State::Main,
                1 => State::Returned(c),
                2 => State::Value(c),
                3 => State::Arith,
                _ => State::Abort,
            };
        }
        let depth = match rng.below(120) {
            0 => rng.between(17, 32),
            1..=3 => rng.between(12, 16),
            _ => rng.between(1, 4),
        };
        let room = if rng.one_in(30) { 512 / depth } else { 5.min(512 / depth) };
        let mut activations = Vec::new();
        let mut function = 0;
        loop {
            let last = activations.len() + 1 == depth;
            let (activation, wanted) = self.activation(rng, function, room, last);
            activations.push(activation);
            let callee = wanted.and_then(|ty| self.callee(rng, ty));
            match callee {
                Some(callee) if !last => function = callee,
                _ => {
                    let control = self.control(rng, function, wanted);
                    return State::Running(Running { control, activations });
                }
            }
        }
    }

    /// A function with this result.
    fn callee(&self, rng: &mut Rng, result: Type) -> Option<usize> {
        let functions = &self.program.functions;
        let all: Vec<usize> =
            (0..functions.len()).filter(|&f| functions[f].result == result).collect();
        rng.pick(&all).copied()
    }

    /// A control over frames that want a value of a type, or none.
    fn control(&self, rng: &mut Rng, function: usize, wanted: Option<Type>) -> Control {
        let names = &self.names[function];
        let Some(ty) = wanted else { return Control::Stmt(names.stmt(rng)) };
        let node = if rng.one_in(2) { names.expr(rng, ty) } else { None };
        match node.map(|n| (n, self.program.functions[function].expr(n))) {
            Some((n, Some(e))) if !matches!(e, Expr::Const(_)) => Control::Expr(n),
            _ => Control::Value(value(rng, ty)),
        }
    }

    /// An activation with at most so many frames, and the type that its top frame wants.
    fn activation(
        &self,
        rng: &mut Rng,
        number: usize,
        room: usize,
        last: bool,
    ) -> (Activation, Option<Type>) {
        let function = &self.program.functions[number];
        let waits = rng.below(room.max(4) - 2);
        let mut frames: Vec<Frame> =
            (0..waits).map(|_| Frame::Stmt(self.names[number].stmt(rng))).collect();
        if !rng.one_in(4) {
            frames.insert(rng.below(waits + 1), Frame::Stmt(function.body));
        }
        let mut wanted = None;
        if !last || rng.one_in(2) {
            let (frame, want) = self.taker(rng, number);
            frames.push(frame);
            wanted = Some(want);
            while frames.len() < room && !rng.one_in(3) {
                let Some((frame, want)) = wanted.and_then(|w| self.giver(rng, number, w)) else {
                    break;
                };
                frames.push(frame);
                wanted = Some(want);
            }
        }
        let empty = [2, 8, 64, 1000][rng.below(4)];
        let types = function.vars.iter();
        let vars = types
            .map(|&ty| if rng.one_in(empty) { Value::Nothing } else { value(rng, ty) })
            .collect();
        (Activation { function: number, vars, frames }, wanted)
    }

    /// A frame that takes a value and gives none, and the type it wants.
    fn taker(&self, rng: &mut Rng, number: usize) -> (Frame, Type) {
        let function = &self.program.functions[number];
        let names = &self.names[number];
        match rng.below(6) {
            0 if !function.vars.is_empty() => {
                let x = rng.below(function.vars.len());
                (Frame::Assign(x as u32), function.vars[x])
            }
            1 => (Frame::If(names.stmt(rng), names.stmt(rng)), Type::Bool),
            2 => (Frame::Assert, Type::Bool),
            3 => {
                let ty = [Type::Nothing, Type::Int, Type::Bool][rng.below(3)];
                (Frame::Discard, ty)
            }
            _ => (Frame::Return, function.result),
        }
    }

    /// A frame that gives a value of a type, and the type it wants.
    fn giver(&self, rng: &mut Rng, number: usize, gives: Type) -> Option<(Frame, Type)> {
        if gives == Type::Nothing || rng.one_in(3) {
            if let Some(call) = self.call(rng, number, gives) {
                return Some(call);
            }
        }
        let names = &self.names[number];
        let op = match gives {
            Type::Nothing => return None,
            Type::Int => rng.below(10) as u8,
            Type::Bool if rng.one_in(2) => {
                return names.expr(rng, Type::Bool).map(|e| (Frame::And(e), Type::Bool));
            }
            Type::Bool => 10 + rng.below(6) as u8,
        };
        let right = if rng.one_in(2) { names.expr(rng, Type::Int) } else { None };
        let frame = match right {
            Some(right) => Frame::First { op, right },
            None => Frame::Second { op, left: rng.edge_word() as i32 },
        };
        Some((frame, Type::Int))
    }

    /// A call's frame that gives a type, and the type it wants.
    fn call(&self, rng: &mut Rng, number: usize, gives: Type) -> Option<(Frame, Type)> {
        let callee = self.callee(rng, gives)?;
        let function = &self.program.functions[callee];
        let params = &function.vars[..function.params];
        let hole = rng.below(params.len());
        let wanted = *params.get(hole)?;
        let done = params[..hole].iter().map(|&ty| value(rng, ty)).collect();
        let names = &self.names[number];
        let rest = params[hole + 1..].iter().map(|&ty| names.expr(rng, ty));
        let rest = rest.collect::<Option<Vec<u32>>>()?;
        Some((Frame::Call { callee, done, rest }, wanted))
    }
}
