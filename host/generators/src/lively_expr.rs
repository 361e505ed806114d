//! Random expressions that mostly come to a value.

use crate::lively_stmt::Body;
use crate::tree::{self, Expr, BOOL, DIV, INT, NOTHING, REM, SUB};

impl Body<'_> {
    /// A random expression of a type.
    pub fn expr(&mut self, ty: u8, depth: usize) -> Expr {
        if depth == 0 || self.room == 0 || self.rng.one_in(5) {
            return self.leaf(ty);
        }
        self.room -= 1;
        if self.rng.one_in(3) || ty == NOTHING {
            if let Some(call) = self.call(ty, depth) {
                return call;
            }
        }
        match ty {
            NOTHING => tree::nothing(),
            BOOL if self.rng.one_in(2) => {
                let left = self.expr(BOOL, depth - 1);
                tree::and(left, self.expr(BOOL, depth - 1))
            }
            BOOL => {
                let left = self.expr(INT, depth - 1);
                tree::op(10 + self.rng.below(6) as u8, left, self.expr(INT, depth - 1))
            }
            _ => {
                let left = self.expr(INT, depth - 1);
                let op = self.rng.below(10) as u8;
                let right = if op == DIV || op == REM {
                    self.divisor(depth)
                } else {
                    self.expr(INT, depth - 1)
                };
                tree::op(op, left, right)
            }
        }
    }

    /// A divisor that is seldom 0.
    fn divisor(&mut self, depth: usize) -> Expr {
        if self.rng.one_in(6) {
            return self.expr(INT, depth - 1);
        }
        tree::int([-7, -1, 1, 2, 3, 10][self.rng.below(6)])
    }

    /// A variable with a value, or a constant.
    fn leaf(&mut self, ty: u8) -> Expr {
        if !self.rng.one_in(3) {
            if let Some(read) = self.readable(ty) {
                return read;
            }
        }
        match ty {
            INT if self.rng.one_in(3) => tree::int(self.rng.edge_word() as i32),
            INT => tree::int(self.rng.below(12) as i32 - 3),
            BOOL => tree::boolean(self.rng.one_in(2)),
            _ => tree::nothing(),
        }
    }

    /// A call of a later function, of the function itself where that ends, or now and then of any.
    fn call(&mut self, ty: u8, depth: usize) -> Option<Expr> {
        let wild = self.rng.one_in(60);
        let signatures = self.signatures;
        let can = |f: &usize| {
            let ends = *f > self.number || (*f == self.number && self.may_recurse);
            signatures[*f].result == ty && (ends || wild)
        };
        let all: Vec<usize> = (0..signatures.len()).filter(can).collect();
        let callee = *self.rng.pick(&all)?;
        let mut arguments = Vec::new();
        for (i, &param) in signatures[callee].params.iter().enumerate() {
            arguments.push(match i {
                0 if callee == self.number && self.may_recurse => {
                    tree::op(SUB, tree::var(0), tree::int(1))
                }
                0 if signatures[callee].recursive => tree::int(self.rng.below(6) as i32),
                _ => self.expr(param, depth - 1),
            });
        }
        Some(tree::call(callee as u32, arguments))
    }
}
