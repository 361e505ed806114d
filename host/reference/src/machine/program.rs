//! The functions of an accepted file as tables of nodes.

use super::state::{Ref, Type, Value};
use crate::record::{self, Node as Record};
use crate::tree::Forest;
use crate::{head, tree, Refusal};

/// An expression with its parts' nodes.
#[derive(Clone, PartialEq, Debug)]
pub enum Expr {
    Const(Value),
    Var(u32),
    Op(u8, u32, u32),
    And(u32, u32),
    Call(usize, Vec<u32>),
}

/// A statement with its expressions' nodes and its statements' references.
#[derive(Clone, Copy, PartialEq, Debug)]
pub enum Stmt {
    Nop,
    Seq(Ref, Ref),
    Assign(u32, u32),
    Decl(u32, Ref),
    If(u32, Ref, Ref),
    While(u32, Ref),
    Return(u32),
    Assert(u32),
    Discard(u32),
}

/// A node of either sort.
#[derive(Clone, PartialEq, Debug)]
pub enum Node {
    Expr(Expr),
    Stmt(Stmt),
}

/// A function with its nodes numbered from 0.
pub struct Function {
    pub result: Type,
    pub params: usize,
    /// The types of all variables, parameters first.
    pub vars: Vec<Type>,
    pub nodes: Vec<Node>,
    pub body: Ref,
}

impl Function {
    /// The expression at a node, if there is one.
    pub fn expr(&self, node: u32) -> Option<&Expr> {
        match self.nodes.get(node as usize) {
            Some(Node::Expr(e)) => Some(e),
            _ => None,
        }
    }

    /// The statement that a reference stands for; none if it stands for no statement of this function.
    pub fn stmt(&self, reference: Ref) -> Option<Stmt> {
        let at = |node: u32| match self.nodes.get(node as usize) {
            Some(Node::Stmt(s)) => Some(*s),
            _ => None,
        };
        match reference {
            Ref::Nop => Some(Stmt::Nop),
            Ref::Node(node) => at(node).filter(|s| *s != Stmt::Nop),
            Ref::IfOf(node) => match at(node)? {
                Stmt::While(condition, _) => Some(Stmt::If(condition, Ref::SeqOf(node), Ref::Nop)),
                _ => None,
            },
            Ref::SeqOf(node) => match at(node)? {
                Stmt::While(_, body) => Some(Stmt::Seq(body, Ref::Node(node))),
                _ => None,
            },
        }
    }
}

/// The edition and the functions of a file, main first.
pub struct Program {
    pub edition: u8,
    pub functions: Vec<Function>,
}

impl Program {
    /// The program of a file, or the refusal of the first question of 1 to 14 that the file fails.
    pub fn new(file: &[u8]) -> Result<Program, Refusal> {
        if let Some(refusal) = crate::check(file) {
            return Err(refusal);
        }
        let records = head::parse(file)?;
        let forest = tree::question_8(&records)?;
        let each = (0..records.functions.len()).map(|number| function(&records, &forest, number));
        Ok(Program { edition: records.edition, functions: each.collect() })
    }

    /// The type of an expression of a function.
    pub fn type_of(&self, function: &Function, e: &Expr) -> Type {
        match e {
            Expr::Const(value) => value.ty(),
            Expr::Var(x) => function.vars[*x as usize],
            Expr::Op(op, ..) => result_of(*op),
            Expr::And(..) => Type::Bool,
            Expr::Call(callee, _) => self.functions[*callee].result,
        }
    }
}

/// The type of an operator's result.
pub fn result_of(op: u8) -> Type {
    if op < 10 {
        Type::Int
    } else {
        Type::Bool
    }
}

/// The type that a byte of the file names.
fn named(byte: u8) -> Type {
    match byte {
        0 => Type::Nothing,
        1 => Type::Int,
        _ => Type::Bool,
    }
}

/// One function of the file.
fn function(records: &record::Program, forest: &Forest, number: usize) -> Function {
    let own = &records.functions[number];
    let part = records.parts[number].clone();
    let params = usize::from(own.params);
    let mut vars: Vec<Type> = (0..own.vars)
        .map(|x| named(1 + (own.mask.checked_shr(x.into()).unwrap_or(0) & 1)))
        .collect();
    for node in records.nodes[part.clone()].iter().filter(|node| node.kind == 9) {
        vars[node.b as usize] = named(node.a);
    }
    let first = part.start;
    let nodes: Vec<Node> = part
        .map(|n| {
            let children: Vec<u32> =
                forest.children[n].iter().map(|&child| (child - first) as u32).collect();
            let is_nop = |child: u32| records.nodes[first + child as usize].kind == 6;
            node(&records.nodes[n], &children, is_nop)
        })
        .collect();
    let last = nodes.len() as u32 - 1;
    let body =
        if nodes[last as usize] == Node::Stmt(Stmt::Nop) { Ref::Nop } else { Ref::Node(last) };
    Function { result: named(own.result), params, vars, nodes, body }
}

/// One node of an accepted file.
fn node(record: &Record, c: &[u32], is_nop: impl Fn(u32) -> bool) -> Node {
    let to = |child: u32| if is_nop(child) { Ref::Nop } else { Ref::Node(child) };
    let (a, b) = (record.a, record.b);
    match record.kind {
        0 => Node::Expr(Expr::Const(Value::Int(b as i32))),
        1 => Node::Expr(Expr::Const(Value::Bool(b == 1))),
        2 => Node::Expr(Expr::Var(b)),
        3 => Node::Expr(Expr::Op(a, c[0], c[1])),
        4 => Node::Expr(Expr::And(c[0], c[1])),
        5 => Node::Expr(Expr::Call(b as usize, c.to_vec())),
        7 => Node::Stmt(Stmt::Seq(to(c[0]), to(c[1]))),
        8 => Node::Stmt(Stmt::Assign(b, c[0])),
        9 => Node::Stmt(Stmt::Decl(b, to(c[0]))),
        10 => Node::Stmt(Stmt::If(c[0], to(c[1]), to(c[2]))),
        11 => Node::Stmt(Stmt::While(c[0], to(c[1]))),
        12 => Node::Stmt(Stmt::Return(c[0])),
        13 => Node::Stmt(Stmt::Assert(c[0])),
        14 => Node::Stmt(Stmt::Discard(c[0])),
        15 => Node::Expr(Expr::Const(Value::Nothing)),
        _ => Node::Stmt(Stmt::Nop),
    }
}
