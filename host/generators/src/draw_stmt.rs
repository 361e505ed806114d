//! Random statements of an exact number of nodes.

use crate::draw::Body;
use crate::tree::{self, Expr, Stmt, BOOL, INT};

/// Whether a statement of so many nodes can always be made to return.
fn can_return(size: usize) -> bool {
    size == 2 || size > 3
}

impl Body<'_> {
    /// A random statement of exactly so many nodes that returns or need not; one that returns
    /// has two nodes or more, and three only while a variable is left.
    pub fn stmt(&mut self, size: usize, returns: bool) -> Stmt {
        if size == 1 {
            return tree::nop();
        }
        if self.decls > 0 && size > 8 {
            self.decls -= 1;
            return self.decl(size, returns);
        }
        for _ in 0..8 {
            let way = self.way(size);
            if let Some(drawn) = self.attempt(way, size, returns) {
                return drawn;
            }
        }
        match (size, returns) {
            (2, false) => tree::discard(self.leaf(INT)),
            (2, true) => {
                let value = self.leaf(self.result);
                self.left(value)
            }
            (3, true) => self.decl(3, true),
            (5, true) => tree::seq(self.stmt(2, false), self.stmt(2, true)),
            _ => tree::seq(tree::nop(), self.stmt(size - 2, returns)),
        }
    }

    /// One of the eight ways to make a statement, by the plan's weights.
    fn way(&mut self, size: usize) -> usize {
        if size > self.plan.small && !self.rng.one_in(40) {
            return 4 + self.rng.below(4);
        }
        let weights = &self.plan.weights;
        let mut at = self.rng.below(weights.iter().sum());
        for (way, &weight) in weights.iter().enumerate() {
            if at < weight {
                return way;
            }
            at -= weight;
        }
        0
    }

    /// A statement made in one of the eight ways, if that can be.
    fn attempt(&mut self, way: usize, size: usize, returns: bool) -> Option<Stmt> {
        match way {
            0..=2 if returns => self.ret(size),
            0 => self.assign(size),
            1 => self
                .plan
                .feasible(size - 1, BOOL)
                .then(|| tree::assert_that(self.expr(size - 1, BOOL))),
            2 => {
                let ty = self.rng.below(3) as u8;
                self.plan.feasible(size - 1, ty).then(|| tree::discard(self.expr(size - 1, ty)))
            }
            3 => self.ret(size),
            4 => self.seq(size, returns),
            5 if self.types.len() < 64 && (!returns || can_return(size - 1)) => {
                Some(self.decl(size, returns))
            }
            6 => self.branch(size, returns),
            7 if !returns => self.repeat(size),
            _ => None,
        }
    }

    /// A return.
    fn ret(&mut self, size: usize) -> Option<Stmt> {
        let ty = self.result;
        if !self.plan.feasible(size - 1, ty) {
            return None;
        }
        let value = self.expr(size - 1, ty);
        Some(self.left(value))
    }

    /// A return of a value, after which every variable counts as having one.
    fn left(&mut self, value: Expr) -> Stmt {
        self.valued |= self.scope;
        self.touched |= self.scope;
        tree::ret(value)
    }

    /// An assign of a variable in scope.
    fn assign(&mut self, size: usize) -> Option<Stmt> {
        let plan = self.plan;
        let x = self.pick(self.assignable(), |ty| plan.feasible(size - 1, ty))?;
        let value = self.expr(size - 1, self.types[x as usize]);
        self.valued |= 1 << x;
        self.touched |= 1 << x;
        Some(tree::assign(x, value))
    }

    /// A decl of a new variable.
    fn decl(&mut self, size: usize, returns: bool) -> Stmt {
        let x = self.types.len() as u32;
        let ty = 1 + self.rng.below(2) as u8;
        self.types.push(ty);
        self.scope |= 1 << x;
        let below = self.stmt(size - 1, returns);
        self.scope &= !(1 << x);
        self.valued &= !(1 << x);
        tree::decl(x, ty, below)
    }

    /// A seq, of which one side returns if it must.
    fn seq(&mut self, size: usize, returns: bool) -> Option<Stmt> {
        let spare = size.checked_sub(3)?;
        let shares = self.share(spare, 2);
        let (left, right) = (1 + shares[0], 1 + shares[1]);
        let left_returns = returns && self.rng.one_in(4);
        let right_returns = returns && !left_returns;
        if (left_returns && !can_return(left)) || (right_returns && !can_return(right)) {
            return None;
        }
        let first = self.stmt(left, left_returns);
        Some(tree::seq(first, self.stmt(right, right_returns)))
    }

    /// A random size for a condition with so many nodes to spare.
    fn condition_size(&mut self, spare: usize) -> usize {
        let size = 1 + self.rng.between(0, spare.min(self.plan.small));
        if self.plan.feasible(size, BOOL) {
            size
        } else {
            size - 1
        }
    }

    /// Which sides of an if return: both if it must, else one at times, as in a guard.
    fn leaving(&mut self, sizes: [usize; 2], returns: bool) -> [bool; 2] {
        let guard = !returns && self.rng.one_in(4);
        let side = self.rng.below(2);
        [0, 1].map(|i| returns || (guard && i == side && can_return(sizes[i])))
    }

    /// An if, of which both sides return if it must.
    fn branch(&mut self, size: usize, returns: bool) -> Option<Stmt> {
        let least = if returns { 2 } else { 1 };
        let spare = size.checked_sub(2 + 2 * least)?;
        let test = self.condition_size(spare);
        let shares = self.share(spare + 1 - test, 2);
        let (left, right) = (least + shares[0], least + shares[1]);
        if returns && !(can_return(left) && can_return(right)) {
            return None;
        }
        let leaving = self.leaving([left, right], returns);
        let condition = self.expr(test, BOOL);
        let found = self.valued;
        let first = self.stmt(left, leaving[0]);
        let after = std::mem::replace(&mut self.valued, found);
        let second = self.stmt(right, leaving[1]);
        self.valued &= after;
        Some(tree::if_else(condition, first, second))
    }

    /// A while.
    fn repeat(&mut self, size: usize) -> Option<Stmt> {
        let spare = size.checked_sub(3)?;
        let test = self.condition_size(spare);
        let condition = self.expr(test, BOOL);
        let found = self.valued;
        let body = self.stmt(spare + 2 - test, false);
        self.valued = found;
        Some(tree::while_do(condition, body))
    }
}
