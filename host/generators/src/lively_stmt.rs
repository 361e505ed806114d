//! Random statements that mostly come to an end.

use crate::lively::Signature;
use crate::rng::Rng;
use crate::tree::{self, Expr, Stmt, ADD, BOOL, INT, LT};

/// One body while it is drawn.
pub(crate) struct Body<'a> {
    pub rng: &'a mut Rng,
    pub signatures: &'a [Signature],
    pub number: usize,
    /// The statements and expressions that may still be drawn before only leaves are.
    pub room: usize,
    /// The types of the variables so far, parameters first.
    pub types: Vec<u8>,
    /// The variables that can be named here.
    scope: u64,
    /// The variables that have a value here.
    pub valued: u64,
    /// Counters, which only their loops change.
    locked: u64,
    /// Whether a call of the function itself comes to an end here.
    pub may_recurse: bool,
    /// Whether reads may need that a return counts as giving every variable a value.
    pub early: bool,
}

impl<'a> Body<'a> {
    /// An empty body of a function.
    pub fn new(
        rng: &'a mut Rng,
        signatures: &'a [Signature],
        number: usize,
        room: usize,
    ) -> Body<'a> {
        let own = &signatures[number];
        let params = (1 << own.params.len()) - 1;
        let (types, locked) = (own.params.clone(), u64::from(own.recursive));
        let (scope, valued, may_recurse, early) = (params, params, false, true);
        Body { rng, signatures, number, room, types, scope, valued, locked, may_recurse, early }
    }

    /// The number of variables so far.
    pub fn variables(&self) -> usize {
        self.types.len()
    }

    /// A body that counts its first parameter down: `if(x0 <= 0, .., ..)`.
    pub fn recursion(&mut self) -> Stmt {
        let found = self.valued;
        let base = self.ending(1);
        self.valued = found;
        self.may_recurse = true;
        let more = self.ending(4);
        tree::if_else(tree::op(11, tree::var(0), tree::int(0)), base, more)
    }

    /// A random statement that returns.
    pub fn ending(&mut self, depth: usize) -> Stmt {
        if depth == 0 || self.room == 0 {
            return self.leave(1);
        }
        self.room -= 1;
        match self.rng.below(12) {
            0 => self.leave(depth),
            1 => {
                let condition = self.expr(BOOL, 2);
                let found = self.valued;
                let first = self.ending(depth - 1);
                let after = std::mem::replace(&mut self.valued, found);
                let second = self.ending(depth - 1);
                self.valued &= after;
                tree::if_else(condition, first, second)
            }
            2 | 3 if self.types.len() < 60 => self.decl(|body| body.ending(depth)),
            4 => tree::seq(self.ending(depth - 1), self.stmt(depth - 1)),
            _ => tree::seq(self.stmt(depth), self.ending(depth)),
        }
    }

    /// A return, after which every variable counts as having a value.
    fn leave(&mut self, depth: usize) -> Stmt {
        let value = self.expr(self.signatures[self.number].result, depth);
        if self.early {
            self.valued |= self.scope;
        }
        tree::ret(value)
    }

    /// A decl of a new variable, mostly with a value at once or after a guard.
    fn decl(&mut self, then: impl FnOnce(&mut Self) -> Stmt) -> Stmt {
        let x = self.types.len() as u32;
        let ty = 1 + self.rng.below(2) as u8;
        self.types.push(ty);
        self.scope |= 1 << x;
        let first = if self.early && self.rng.one_in(6) {
            Some(self.guarded(|body| body.set(x)))
        } else {
            (!self.rng.one_in(4)).then(|| self.set(x))
        };
        let rest = then(self);
        self.scope &= !(1 << x);
        self.valued &= !(1 << x);
        match first {
            Some(first) => tree::decl(x, ty, tree::seq(first, rest)),
            None => tree::decl(x, ty, rest),
        }
    }

    /// An assign of a variable.
    fn set(&mut self, x: u32) -> Stmt {
        let value = self.expr(self.types[x as usize], 2);
        self.valued |= 1 << x;
        tree::assign(x, value)
    }

    /// An assign of a random variable in scope that is no counter.
    fn assign(&mut self) -> Option<Stmt> {
        self.assign_of(self.scope & !self.locked)
    }

    /// An assign of a random variable of a set.
    fn assign_of(&mut self, can: u64) -> Option<Stmt> {
        let all: Vec<u32> = (0..self.types.len() as u32).filter(|x| (can >> x) & 1 == 1).collect();
        let x = *self.rng.pick(&all)?;
        Some(self.set(x))
    }

    /// A random statement.
    pub fn stmt(&mut self, depth: usize) -> Stmt {
        if depth == 0 || self.room == 0 {
            return self.assign().unwrap_or(tree::nop());
        }
        self.room -= 1;
        match self.rng.below(16) {
            0..=2 => self.assign().unwrap_or(tree::nop()),
            3 | 4 if self.types.len() < 60 => self.decl(|body| body.stmt(depth - 1)),
            5 | 6 => self.branch(depth),
            7 | 8 if self.types.len() < 60 => self.count(depth),
            9 => self.assert(),
            10 | 11 => {
                let ty = self.rng.below(3) as u8;
                tree::discard(self.expr(ty, 2))
            }
            12 => tree::nop(),
            13 if self.rng.one_in(12) => self.endless(depth),
            14 if self.rng.one_in(2) => self.guard(depth),
            15 if self.early && self.rng.one_in(8) => {
                let first = self.ending(1);
                tree::seq(first, self.stmt(depth - 1))
            }
            _ => {
                let first = self.stmt(depth - 1);
                tree::seq(first, self.stmt(depth - 1))
            }
        }
    }

    /// An if that leaves the function on one side and on the other does nothing, or sets what has no value.
    fn guard(&mut self, depth: usize) -> Stmt {
        self.guarded(|body| {
            if !body.early || body.rng.one_in(3) {
                return tree::nop();
            }
            let unset = body.scope & !body.valued;
            body.assign_of(unset).unwrap_or_else(|| body.stmt(depth - 1))
        })
    }

    /// An if that leaves the function on one side and on the other goes on.
    fn guarded(&mut self, on: impl FnOnce(&mut Self) -> Stmt) -> Stmt {
        let (condition, found) = (self.expr(BOOL, 2), self.valued);
        let leave = self.ending(1);
        self.valued &= found;
        let on = on(self);
        if self.early && self.rng.one_in(4) {
            tree::if_else(condition, on, leave)
        } else {
            tree::if_else(condition, leave, on)
        }
    }

    /// An if.
    fn branch(&mut self, depth: usize) -> Stmt {
        let condition = self.expr(BOOL, 2);
        let found = self.valued;
        let first = self.stmt(depth - 1);
        let after = std::mem::replace(&mut self.valued, found);
        let second = self.stmt(depth - 1);
        self.valued &= after;
        tree::if_else(condition, first, second)
    }

    /// An assert that is mostly kept.
    fn assert(&mut self) -> Stmt {
        let kept = tree::op(11, tree::int(self.rng.below(3) as i32), tree::int(2));
        let drawn = if self.rng.one_in(8) { self.expr(BOOL, 2) } else { kept };
        tree::assert_that(drawn)
    }

    /// A loop that counts a new variable up to a small number.
    fn count(&mut self, depth: usize) -> Stmt {
        let c = self.types.len() as u32;
        self.types.push(INT);
        let one = 1 << c;
        (self.scope, self.valued, self.locked) =
            (self.scope | one, self.valued | one, self.locked | one);
        let mut condition = tree::op(LT, tree::var(c), tree::int(self.rng.below(5) as i32));
        if self.rng.one_in(5) {
            condition = tree::and(condition, self.expr(BOOL, 2));
        }
        let found = self.valued;
        let body = self.stmt(depth - 1);
        let on = tree::assign(c, tree::op(ADD, tree::var(c), tree::int(1)));
        let turn = if self.rng.one_in(2) { tree::seq(body, on) } else { tree::seq(on, body) };
        self.valued = found & !one;
        self.scope &= !one;
        tree::decl(
            c,
            INT,
            tree::seq(tree::assign(c, tree::int(0)), tree::while_do(condition, turn)),
        )
    }

    /// A loop that any condition may end.
    fn endless(&mut self, depth: usize) -> Stmt {
        let condition = self.expr(BOOL, 1);
        let found = self.valued;
        let body = self.stmt(depth - 1);
        self.valued = found;
        tree::while_do(condition, body)
    }

    /// A random variable with a value and of a type.
    pub fn readable(&mut self, ty: u8) -> Option<Expr> {
        let fits = |x: &u32| (self.valued >> x) & 1 == 1 && self.types[*x as usize] == ty;
        let all: Vec<u32> = (0..self.types.len() as u32).filter(fits).collect();
        self.rng.pick(&all).map(|&x| tree::var(x))
    }
}
