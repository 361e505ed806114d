//! Rules 13 and 14 of single statements, as tables over a function's nodes.

use crate::machine::program::{Expr, Function, Node, Stmt};
use crate::machine::state::Ref;

/// A set of variables, one bit for each.
pub type Set = u64;

/// What a statement does to any set of variables with values, and what it needs of that set.
#[derive(Clone, Copy)]
pub struct Flow {
    /// The variables that have a value after it whatever it found.
    pub adds: Set,
    /// The variables that it leaves as it found them, if it does not add them.
    pub keeps: Set,
    /// The variables that must have a value before it.
    pub needs: Set,
    /// Whether a variable is read that can have no value whatever is found.
    pub hopeless: bool,
    /// Whether it returns by rule 14.
    pub returns: bool,
}

impl Flow {
    /// Reads these variables and leaves what it found.
    pub fn reads(needs: Set) -> Flow {
        Flow { adds: 0, keeps: Set::MAX, needs, hopeless: false, returns: false }
    }

    /// Returns, which counts as giving a value to all these variables.
    pub fn returning(self, all: Set) -> Flow {
        Flow { adds: self.adds | all, returns: true, ..self }
    }

    /// The set that is left where this one was found.
    pub fn leaves(&self, found: Set) -> Set {
        self.adds | (found & self.keeps)
    }

    /// Whether every variable read has a value where this set was found.
    pub fn accepts(&self, found: Set) -> bool {
        !self.hopeless && self.needs & !found == 0
    }

    /// This and then the other.
    pub fn then(self, next: Flow) -> Flow {
        let open = next.needs & !self.adds;
        Flow {
            adds: next.adds | (self.adds & next.keeps),
            keeps: self.keeps & next.keeps,
            needs: self.needs | (open & self.keeps),
            hopeless: self.hopeless || next.hopeless || open & !self.keeps != 0,
            returns: self.returns || next.returns,
        }
    }

    /// This or the other, both from what is found.
    pub fn or(self, other: Flow) -> Flow {
        Flow {
            adds: self.adds & other.adds,
            keeps: (self.keeps | self.adds) & (other.keeps | other.adds),
            needs: self.needs | other.needs,
            hopeless: self.hopeless || other.hopeless,
            returns: self.returns && other.returns,
        }
    }

    /// Adds a variable at the end.
    fn adding(self, variable: u32) -> Flow {
        Flow { adds: self.adds | 1 << variable, ..self }
    }

    /// Takes a variable away before and after.
    fn without(self, variable: u32) -> Flow {
        let one = 1 << variable;
        Flow {
            adds: self.adds & !one,
            keeps: self.keeps & !one,
            needs: self.needs & !one,
            hopeless: self.hopeless || self.needs & one != 0,
            ..self
        }
    }
}

/// The flow of the one nop.
pub fn nop() -> Flow {
    Flow::reads(0)
}

/// The tables of one function.
pub struct Flows {
    /// Every variable of the function.
    pub all: Set,
    /// For each expression the variables that it reads, for each statement its flow.
    nodes: Vec<Flow>,
    /// For each node the variables that it declares.
    declares: Vec<Set>,
}

impl Flows {
    /// Fills the tables from the children up.
    pub fn new(function: &Function) -> Flows {
        let all = (0..function.vars.len()).fold(0, |set, variable| set | 1 << variable);
        let mut flows = Flows { all, nodes: Vec::new(), declares: Vec::new() };
        for node in &function.nodes {
            let (flow, declared) = match node {
                Node::Expr(e) => (Flow::reads(flows.reads_of(e)), 0),
                Node::Stmt(s) => (flows.of_stmt(*s), flows.declared_by(*s)),
            };
            flows.nodes.push(flow);
            flows.declares.push(declared);
        }
        flows
    }

    /// The variables that an expression of the function reads.
    pub fn reads(&self, node: u32) -> Set {
        self.nodes[node as usize].needs
    }

    /// The flow of a statement of the function.
    pub fn stmt(&self, function: &Function, reference: Ref) -> Flow {
        match (reference, function.stmt(reference)) {
            (Ref::IfOf(_) | Ref::SeqOf(_), Some(s)) => match s {
                Stmt::If(e, s, _) => self.e(e).then(self.stmt(function, s).or(nop())),
                Stmt::Seq(s, t) => self.r(s).then(self.r(t)),
                _ => nop(),
            },
            _ => self.r(reference),
        }
    }

    /// The flow of an expression's reads.
    fn e(&self, node: u32) -> Flow {
        Flow::reads(self.reads(node))
    }

    /// The flow of nop or of a statement's node.
    fn r(&self, reference: Ref) -> Flow {
        match reference {
            Ref::Node(node) => self.nodes[node as usize],
            _ => nop(),
        }
    }

    /// The variables that nop or a statement's node declares.
    fn d(&self, reference: Ref) -> Set {
        match reference {
            Ref::Node(node) => self.declares[node as usize],
            _ => 0,
        }
    }

    /// The variables read by an expression over nodes already done.
    fn reads_of(&self, e: &Expr) -> Set {
        match e {
            Expr::Const(_) => 0,
            Expr::Var(x) => 1 << x,
            Expr::Op(_, l, r) | Expr::And(l, r) => self.reads(*l) | self.reads(*r),
            Expr::Call(_, all) => all.iter().fold(0, |set, &e| set | self.reads(e)),
        }
    }

    /// The flow of a statement over nodes already done.
    fn of_stmt(&self, s: Stmt) -> Flow {
        match s {
            Stmt::Nop => nop(),
            Stmt::Seq(s, t) => self.r(s).then(self.r(t)),
            Stmt::Assign(x, e) => self.e(e).adding(x),
            Stmt::Decl(x, s) => self.r(s).without(x),
            Stmt::If(e, s, t) => self.e(e).then(self.r(s).or(self.r(t))),
            Stmt::While(e, s) => {
                let turn = self.r(s);
                let needs = self.reads(e) | turn.needs;
                Flow { keeps: !self.d(s), hopeless: turn.hopeless, ..Flow::reads(needs) }
            }
            Stmt::Return(e) => self.e(e).returning(self.all),
            Stmt::Assert(e) | Stmt::Discard(e) => self.e(e),
        }
    }

    /// The variables declared by a statement over nodes already done.
    fn declared_by(&self, s: Stmt) -> Set {
        match s {
            Stmt::Decl(x, s) => self.d(s) | 1 << x,
            Stmt::Seq(s, t) | Stmt::If(_, s, t) => self.d(s) | self.d(t),
            Stmt::While(_, s) => self.d(s),
            _ => 0,
        }
    }
}
