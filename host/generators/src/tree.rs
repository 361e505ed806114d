//! Expressions, statements and functions, written out in postorder.

use crate::record::{File, FunctionRecord, Header, NodeRecord};

/// The type bytes.
pub const NOTHING: u8 = 0;
pub const INT: u8 = 1;
pub const BOOL: u8 = 2;

/// The operators' numbers.
pub const ADD: u8 = 0;
pub const SUB: u8 = 1;
pub const MUL: u8 = 2;
pub const DIV: u8 = 3;
pub const REM: u8 = 4;
pub const SHL: u8 = 5;
pub const SHR: u8 = 6;
pub const AND: u8 = 7;
pub const XOR: u8 = 9;
pub const LT: u8 = 10;
pub const LE: u8 = 11;
pub const GT: u8 = 12;
pub const GE: u8 = 13;
pub const EQ: u8 = 14;
pub const NE: u8 = 15;

/// An expression, or a statement put where one belongs.
#[derive(Clone)]
pub enum Expr {
    Int(i32),
    Bool(bool),
    Var(u32),
    Op(u8, Box<Expr>, Box<Expr>),
    And(Box<Expr>, Box<Expr>),
    Call(u32, Vec<Expr>),
    Nothing,
    Misplaced(Box<Stmt>),
}

/// A statement, or an expression put where one belongs.
#[derive(Clone)]
pub enum Stmt {
    Nop,
    Seq(Box<Stmt>, Box<Stmt>),
    Assign(u32, Expr),
    Decl(u32, u8, Box<Stmt>),
    If(Expr, Box<Stmt>, Box<Stmt>),
    While(Expr, Box<Stmt>),
    Return(Expr),
    Assert(Expr),
    Discard(Expr),
    Misplaced(Box<Expr>),
}

/// A function with its body.
#[derive(Clone)]
pub struct Function {
    pub result: u8,
    pub params: u8,
    pub vars: u8,
    pub mask: u8,
    pub body: Stmt,
}

/// A function of no parameters.
pub fn function(result: u8, vars: u8, body: Stmt) -> Function {
    Function { result, params: 0, vars, mask: 0, body }
}

/// A function with parameters, bool where the mask has a bit.
pub fn taking(result: u8, params: u8, mask: u8, vars: u8, body: Stmt) -> Function {
    Function { result, params, vars, mask, body }
}

/// A file of one function, main, with this many variables.
pub fn main(vars: u8, body: Stmt) -> File {
    file(&[function(INT, vars, body)])
}

/// The file of these functions, main first.
pub fn file(functions: &[Function]) -> File {
    let mut nodes = Vec::new();
    let mut records = Vec::new();
    for f in functions {
        records.push(FunctionRecord {
            mark: *b"FN",
            result: f.result,
            params: f.params,
            vars: f.vars,
            mask: f.mask,
            zeros: [0; 2],
            count: write_stmt(&f.body, &mut nodes),
        });
    }
    let (functions, count) = (records.len() as u16, nodes.len() as u32);
    let header = Header { mark: *b"PR", functions, nodes: count, edition: 0, zeros: [0; 3] };
    File { header, functions: records, nodes }
}

/// Writes a node after children of a total size and gives its size.
fn write_node(kind: u8, a: u8, b: u32, below: u32, out: &mut Vec<NodeRecord>) -> u32 {
    out.push(NodeRecord::new(kind, a, b, 1 + below));
    1 + below
}

/// Writes an expression in postorder and gives its size.
fn write_expr(e: &Expr, out: &mut Vec<NodeRecord>) -> u32 {
    let (kind, a, b, below) = match e {
        Expr::Int(value) => (0, 0, *value as u32, 0),
        Expr::Bool(value) => (1, 0, u32::from(*value), 0),
        Expr::Var(x) => (2, 0, *x, 0),
        Expr::Op(op, l, r) => (3, *op, 0, write_expr(l, out) + write_expr(r, out)),
        Expr::And(l, r) => (4, 0, 0, write_expr(l, out) + write_expr(r, out)),
        Expr::Call(f, arguments) => {
            let below = arguments.iter().map(|argument| write_expr(argument, out)).sum();
            (5, arguments.len() as u8, *f, below)
        }
        Expr::Nothing => (15, 0, 0, 0),
        Expr::Misplaced(s) => return write_stmt(s, out),
    };
    write_node(kind, a, b, below, out)
}

/// Writes a statement in postorder and gives its size.
fn write_stmt(s: &Stmt, out: &mut Vec<NodeRecord>) -> u32 {
    let (kind, a, b, below) = match s {
        Stmt::Nop => (6, 0, 0, 0),
        Stmt::Seq(l, r) => (7, 0, 0, write_stmt(l, out) + write_stmt(r, out)),
        Stmt::Assign(x, e) => (8, 0, *x, write_expr(e, out)),
        Stmt::Decl(x, ty, s) => (9, *ty, *x, write_stmt(s, out)),
        Stmt::If(e, s, t) => {
            let below = write_expr(e, out) + write_stmt(s, out) + write_stmt(t, out);
            (10, 0, 0, below)
        }
        Stmt::While(e, s) => (11, 0, 0, write_expr(e, out) + write_stmt(s, out)),
        Stmt::Return(e) => (12, 0, 0, write_expr(e, out)),
        Stmt::Assert(e) => (13, 0, 0, write_expr(e, out)),
        Stmt::Discard(e) => (14, 0, 0, write_expr(e, out)),
        Stmt::Misplaced(e) => return write_expr(e, out),
    };
    write_node(kind, a, b, below, out)
}

/// An int constant.
pub fn int(value: i32) -> Expr {
    Expr::Int(value)
}

/// A bool constant.
pub fn boolean(value: bool) -> Expr {
    Expr::Bool(value)
}

/// A variable read.
pub fn var(x: u32) -> Expr {
    Expr::Var(x)
}

/// An operator over two expressions.
pub fn op(number: u8, left: Expr, right: Expr) -> Expr {
    Expr::Op(number, Box::new(left), Box::new(right))
}

/// &&.
pub fn and(left: Expr, right: Expr) -> Expr {
    Expr::And(Box::new(left), Box::new(right))
}

/// A call.
pub fn call(function: u32, arguments: Vec<Expr>) -> Expr {
    Expr::Call(function, arguments)
}

/// The value nothing.
pub fn nothing() -> Expr {
    Expr::Nothing
}

/// A statement in an expression's position.
pub fn stmt_as_expr(s: Stmt) -> Expr {
    Expr::Misplaced(Box::new(s))
}

/// An expression in a statement's position.
pub fn expr_as_stmt(e: Expr) -> Stmt {
    Stmt::Misplaced(Box::new(e))
}

/// The statement that does nothing.
pub fn nop() -> Stmt {
    Stmt::Nop
}

/// Two statements in order.
pub fn seq(left: Stmt, right: Stmt) -> Stmt {
    Stmt::Seq(Box::new(left), Box::new(right))
}

/// An assignment.
pub fn assign(x: u32, e: Expr) -> Stmt {
    Stmt::Assign(x, e)
}

/// A declaration over a statement.
pub fn decl(x: u32, ty: u8, s: Stmt) -> Stmt {
    Stmt::Decl(x, ty, Box::new(s))
}

/// An if with both branches.
pub fn if_else(e: Expr, s: Stmt, t: Stmt) -> Stmt {
    Stmt::If(e, Box::new(s), Box::new(t))
}

/// A while.
pub fn while_do(e: Expr, s: Stmt) -> Stmt {
    Stmt::While(e, Box::new(s))
}

/// A return.
pub fn ret(e: Expr) -> Stmt {
    Stmt::Return(e)
}

/// An assert.
pub fn assert_that(e: Expr) -> Stmt {
    Stmt::Assert(e)
}

/// An expression as statement.
pub fn discard(e: Expr) -> Stmt {
    Stmt::Discard(e)
}

#[cfg(test)]
mod test {
    use super::*;

    /// `return 0` is the 48 bytes of the paper's layout.
    #[test]
    fn return_zero() {
        let bytes = main(0, ret(int(0))).bytes();
        let hex: String = bytes.iter().map(|byte| format!("{byte:02X}")).collect();
        let records = [
            "505201000200000000000000",
            "464E01000000000002000000",
            "4E4400000000000001000000",
            "4E440C000000000002000000",
        ];
        assert_eq!(hex, records.concat());
    }
}
