//! Random expressions of an exact number of nodes.

use crate::plan::{Names, Plan, Share};
use crate::rng::Rng;
use crate::tree::{self, Expr, BOOL, INT, NOTHING};
use crate::valid::Signature;

/// One body while it is drawn.
pub struct Body<'a> {
    pub rng: &'a mut Rng,
    pub plan: &'a Plan,
    pub result: u8,
    /// The types of the variables so far, parameters first.
    pub types: Vec<u8>,
    /// The variables that can be named here.
    pub scope: u64,
    /// The variables that have a value here.
    pub valued: u64,
    /// The variables that have been assigned on some way.
    pub touched: u64,
    /// The decls that the body still begins with.
    pub decls: usize,
}

impl<'a> Body<'a> {
    /// An empty body of a function.
    pub fn new(rng: &'a mut Rng, plan: &'a Plan, own: &Signature) -> Body<'a> {
        let params = (1 << own.params.len()) - 1;
        let types = own.params.clone();
        let decls = if matches!(plan.names, Names::Touched | Names::Early) { 3 } else { 0 };
        Body {
            rng,
            plan,
            result: own.result,
            types,
            scope: params,
            valued: params,
            touched: 0,
            decls,
        }
    }

    /// The number of variables so far.
    pub fn variables(&self) -> usize {
        self.types.len()
    }

    /// The variables that the plan lets a read name here.
    fn readable(&mut self) -> u64 {
        match self.plan.names {
            Names::Valued => self.valued,
            Names::Touched if self.rng.one_in(3) => self.touched & self.scope,
            Names::Early if self.rng.one_in(8) => self.scope,
            Names::Touched | Names::Early => self.valued,
            Names::Scoped => self.scope,
            Names::Any => u64::MAX,
        }
    }

    /// The variables that the plan lets an assign name here.
    pub fn assignable(&self) -> u64 {
        if self.plan.names == Names::Any {
            u64::MAX
        } else {
            self.scope
        }
    }

    /// A random variable of a set that passes a test.
    pub fn pick(&mut self, set: u64, test: impl Fn(u8) -> bool) -> Option<u32> {
        let fits = |&x: &u32| (set >> x) & 1 == 1 && test(self.types[x as usize]);
        let all: Vec<u32> = (0..self.types.len() as u32).filter(fits).collect();
        self.rng.pick(&all).copied()
    }

    /// Shares a number of nodes out among expressions of these types, if it can be done.
    fn split(&mut self, total: usize, types: &[u8]) -> Option<Vec<usize>> {
        let spare = total.checked_sub(types.len())?;
        let mut sizes = vec![1; types.len()];
        if spare % 2 == 1 {
            let even = |i: &usize| self.plan.least[usize::from(types[*i])][0] <= spare + 1;
            let can: Vec<usize> = (0..types.len()).filter(even).collect();
            let chosen = *self.rng.pick(&can)?;
            sizes[chosen] = self.plan.least[usize::from(types[chosen])][0];
        }
        let used: usize = sizes.iter().sum();
        if types.is_empty() {
            return (total == 0).then_some(sizes);
        }
        let pairs = self.share((total - used) / 2, types.len());
        Some(sizes.iter().zip(pairs).map(|(size, pair)| size + 2 * pair).collect())
    }

    /// Shares a number out among so many places in the plan's way.
    pub fn share(&mut self, total: usize, places: usize) -> Vec<usize> {
        let mut shares = vec![0; places];
        match self.plan.share {
            Share::First => shares[0] = total,
            Share::Last => shares[places - 1] = total,
            Share::Even => {
                for (i, share) in shares.iter_mut().enumerate() {
                    *share = total / places + usize::from(i < total % places);
                }
            }
            Share::Any => {
                let turn = self.rng.below(places);
                let mut rest = total;
                for i in 1..places {
                    let taken = self.rng.between(0, rest);
                    shares[(turn + i) % places] = taken;
                    rest -= taken;
                }
                shares[turn] = rest;
            }
        }
        shares
    }

    /// A random expression of a type and of exactly so many nodes, which must be feasible.
    pub fn expr(&mut self, size: usize, ty: u8) -> Expr {
        if size == 1 {
            return self.leaf(ty);
        }
        if self.rng.one_in(self.plan.call_rate) {
            if let Some(call) = self.call(size, ty) {
                return call;
            }
        }
        let wants_bool = ty == BOOL && self.rng.one_in(2);
        let operands = if wants_bool { [BOOL; 2] } else { [INT; 2] };
        let sizes = if ty == NOTHING { None } else { self.split(size - 1, &operands) };
        let Some(sizes) = sizes else {
            return self.call(size, ty).unwrap_or(Expr::Nothing);
        };
        let left = self.expr(sizes[0], operands[0]);
        let right = self.expr(sizes[1], operands[1]);
        match (ty, wants_bool) {
            (_, true) => tree::and(left, right),
            (INT, _) => tree::op(self.rng.below(10) as u8, left, right),
            _ => tree::op(10 + self.rng.below(6) as u8, left, right),
        }
    }

    /// A random expression of one node.
    pub fn leaf(&mut self, ty: u8) -> Expr {
        let readable = self.readable();
        let readable = self.pick(readable, |own| own == ty);
        match (self.rng.below(4), readable) {
            (0 | 1, Some(x)) => tree::var(x),
            (2, _) => self.call(1, ty).unwrap_or(self.constant(ty)),
            _ => self.constant(ty),
        }
    }

    /// A random constant.
    fn constant(&mut self, ty: u8) -> Expr {
        match ty {
            INT => tree::int(self.rng.edge_word() as i32),
            BOOL => tree::boolean(self.rng.one_in(2)),
            _ => tree::nothing(),
        }
    }

    /// A random call of a type and of exactly so many nodes, if there is one.
    fn call(&mut self, size: usize, ty: u8) -> Option<Expr> {
        let plan = self.plan;
        let callees = &plan.callees[usize::from(ty)];
        let turn = self.rng.below(callees.len());
        for i in 0..callees.len() {
            let callee = callees[(turn + i) % callees.len()];
            let params = &plan.signatures[callee].params;
            if params.is_empty() != (size == 1) {
                continue;
            }
            if let Some(sizes) = self.split(size - 1, params) {
                let arguments = sizes.iter().zip(params).map(|(&n, &ty)| self.expr(n, ty));
                return Some(tree::call(callee as u32, arguments.collect()));
            }
        }
        None
    }
}
