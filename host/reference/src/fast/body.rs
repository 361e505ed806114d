//! Questions 7 to 14 of one function, in one pass over its nodes after question 7's.

use super::fields::{self, Decls};
use super::stack::{Entry, Faults, BOOL, INT, NONE, NOTHING, RETURNS, STATEMENT};
use super::{reads, word, Functions, RECORD};
use crate::Refusal;

/// One function's judgement; each tree is built in the place of its first child.
struct Body<'a> {
    functions: Functions<'a>,
    params: u32,
    result: u8,
    bools: u64,
    decls: &'a Decls,
    stack: &'a mut Vec<Entry>,
    faults: Faults,
}

/// What one function's judgement leaves for the next one to use again.
pub struct Space {
    decls: Decls,
    stack: Vec<Entry>,
}

impl Space {
    /// Room for so many nodes.
    pub fn new(nodes: usize) -> Space {
        Space { decls: Decls::new(), stack: Vec::with_capacity(nodes) }
    }
}

/// Judges a function; node `n` of its part has place `base + n`.
pub fn judge(
    functions: Functions<'_>,
    function: usize,
    part: &[u8],
    base: u32,
    space: &mut Space,
) -> Option<Refusal> {
    if let Err(node) = fields::judge(functions, function, part, &mut space.decls) {
        return Some((7, base + node, 0));
    }
    space.stack.clear();
    let mut body = Body {
        functions,
        params: u32::from(functions.params(function)),
        result: functions.result(function),
        bools: u64::from(functions.mask(function)) | space.decls.bools,
        decls: &space.decls,
        stack: &mut space.stack,
        faults: Faults::new(),
    };
    if let Err(node) = body.trees(part) {
        return Some((8, base + node, 0));
    }
    body.refusal(functions.vars(function), function as u32 + 1, base, part)
}

impl Body<'_> {
    /// Builds all trees, or gives the first node that fails question 8.
    fn trees(&mut self, part: &[u8]) -> Result<(), u32> {
        let mut size = 0;
        let mut count = 0;
        for r in part.chunks_exact(RECORD) {
            size = self.tree(count, r[2], r[3], word(r, 4)).ok_or(count)?;
            if size != word(r, 8) {
                return Err(count);
            }
            count += 1;
        }
        if size == count {
            Ok(())
        } else {
            Err(count - 1)
        }
    }

    /// Builds the tree of a node over the last finished ones and gives its size, or none if they
    /// are too few.
    #[inline]
    fn tree(&mut self, node: u32, kind: u8, a: u8, b: u32) -> Option<u32> {
        match kind {
            0 => self.leaf(node, INT, 0),
            1 => self.leaf(node, BOOL, 0),
            2 => self.variable(node, b),
            3 => self.operator(node, INT, if a < 10 { INT } else { BOOL }),
            4 => self.operator(node, BOOL, BOOL),
            5 => self.call(node, a, b),
            6 => self.leaf(node, STATEMENT, 0),
            7 => self.seq(node),
            8 => self.assign(node, b),
            9 => self.decl(node, b),
            10 => self.branch(node),
            11 => self.repeat(node),
            12 => self.single(node, self.result, RETURNS, u64::MAX),
            13 => self.single(node, BOOL, STATEMENT, 0),
            14 => self.discard(node),
            _ => self.leaf(node, NOTHING, 0),
        }
    }

    /// A tree of one node.
    #[inline]
    fn leaf(&mut self, node: u32, code: u8, reads: u64) -> Option<u32> {
        self.stack.push(Entry { code, node, size: 1, reads, sets: 0 });
        Some(1)
    }

    /// Question 11 of a node that names a variable.
    #[inline]
    fn scoped(&mut self, node: u32, b: u32) {
        let (first, decl) = self.decls.scopes[b as usize];
        if b >= self.params && !(first <= node && node < decl) {
            self.faults.eleventh = self.faults.eleventh.min(node);
        }
    }

    /// The type code of a variable.
    #[inline]
    fn type_of(&self, b: u32) -> u8 {
        INT + ((self.bools >> b) & 1) as u8
    }

    /// A variable read.
    #[inline]
    fn variable(&mut self, node: u32, b: u32) -> Option<u32> {
        self.scoped(node, b);
        self.leaf(node, self.type_of(b), 1 << b)
    }

    /// An operator or &&.
    #[inline]
    fn operator(&mut self, node: u32, wants: u8, code: u8) -> Option<u32> {
        let right = self.stack.pop()?;
        let left = self.stack.last_mut()?;
        self.faults.wants(node, left, wants);
        self.faults.wants(node, &right, wants);
        (left.code, left.node) = (code, node);
        left.size += 1 + right.size;
        left.reads |= right.reads;
        Some(left.size)
    }

    /// A call.
    #[inline]
    fn call(&mut self, node: u32, a: u8, b: u32) -> Option<u32> {
        let (callee, count) = (b as usize, usize::from(a));
        let (code, mask) = (self.functions.result(callee), self.functions.mask(callee));
        let mut entry = Entry { code, node, size: 1, reads: 0, sets: 0 };
        let first = self.stack.len().checked_sub(count)?;
        for (i, argument) in self.stack[first..].iter().enumerate() {
            self.faults.wants(node, argument, INT + ((mask >> i) & 1));
            entry.size += argument.size;
            entry.reads |= argument.reads;
        }
        self.stack.truncate(first);
        self.stack.push(entry);
        Some(entry.size)
    }

    /// A seq.
    #[inline]
    fn seq(&mut self, node: u32) -> Option<u32> {
        let right = self.stack.pop()?;
        let left = self.stack.last_mut()?;
        self.faults.wants_statement(left);
        self.faults.wants_statement(&right);
        (left.code, left.node) = (left.code.max(right.code), node);
        left.size += 1 + right.size;
        left.reads |= right.reads & !left.sets;
        left.sets |= right.sets;
        Some(left.size)
    }

    /// An assign.
    #[inline]
    fn assign(&mut self, node: u32, b: u32) -> Option<u32> {
        self.scoped(node, b);
        self.single(node, self.type_of(b), STATEMENT, 1 << b)
    }

    /// A decl; a read that the statement makes before it assigns fails question 13.
    #[inline]
    fn decl(&mut self, node: u32, b: u32) -> Option<u32> {
        let child = self.stack.last_mut()?;
        self.faults.wants_statement(child);
        self.faults.thirteenth |= (child.reads >> b) & 1 == 1;
        child.node = node;
        child.size += 1;
        child.sets &= !(1 << b);
        Some(child.size)
    }

    /// An if.
    #[inline]
    fn branch(&mut self, node: u32) -> Option<u32> {
        let second = self.stack.pop()?;
        let first = self.stack.pop()?;
        let condition = self.stack.last_mut()?;
        self.faults.wants(node, condition, BOOL);
        self.faults.wants_statement(&first);
        self.faults.wants_statement(&second);
        (condition.code, condition.node) = (first.code.min(second.code), node);
        condition.size += 1 + first.size + second.size;
        condition.reads |= first.reads | second.reads;
        condition.sets = first.sets & second.sets;
        Some(condition.size)
    }

    /// A while.
    #[inline]
    fn repeat(&mut self, node: u32) -> Option<u32> {
        let body = self.stack.pop()?;
        let condition = self.stack.last_mut()?;
        self.faults.wants(node, condition, BOOL);
        self.faults.wants_statement(&body);
        (condition.code, condition.node) = (STATEMENT, node);
        condition.size += 1 + body.size;
        condition.reads |= body.reads;
        Some(condition.size)
    }

    /// A statement over one expression of a type.
    #[inline]
    fn single(&mut self, node: u32, wants: u8, code: u8, sets: u64) -> Option<u32> {
        let child = self.stack.last_mut()?;
        self.faults.wants(node, child, wants);
        (child.code, child.node, child.sets) = (code, node, sets);
        child.size += 1;
        Some(child.size)
    }

    /// An expression as statement.
    #[inline]
    fn discard(&mut self, node: u32) -> Option<u32> {
        let child = self.stack.last_mut()?;
        self.faults.wants_expression(child);
        (child.code, child.node) = (STATEMENT, node);
        child.size += 1;
        Some(child.size)
    }

    /// Questions 9 to 14 from what the pass over the nodes noted.
    fn refusal(&mut self, vars: u8, place: u32, base: u32, part: &[u8]) -> Option<Refusal> {
        let body = self.stack.last()?;
        self.faults.wants_statement(body);
        if self.faults.ninth != NONE {
            return Some((9, base + self.faults.ninth, 0));
        }
        let below = |n: u32| u64::MAX.checked_shr(64 - n).unwrap_or(0);
        let own = below(u32::from(vars)) & !below(self.params);
        let wrong = own & (!self.decls.seen | self.decls.twice);
        if wrong != 0 {
            return Some((10, place, wrong.trailing_zeros()));
        }
        if self.faults.eleventh != NONE {
            return Some((11, base + self.faults.eleventh, 0));
        }
        if self.faults.twelfth != NONE {
            return Some((12, base + self.faults.twelfth, 0));
        }
        if self.faults.thirteenth {
            let node = reads::lowest(part, below(self.params));
            return Some((13, base + node as u32, 0));
        }
        (body.code != RETURNS).then_some((14, place, 0))
    }
}
