//! Runs on the words, with the head in locals.

use super::code::{activation, variable, Code, Part};
use super::Words;
use crate::image::{ACTIVATION, FRAME, FRAMES};
use crate::machine::run::{CALLERS, FRAMES as MOST};
use crate::machine::Outcome;

/// The first word after the last frame that the limit allows.
const END: usize = FRAMES + FRAME * MOST;

/// What came of a step.
pub enum Next {
    On,
    Full,
    /// Main returned this int.
    Returned(u32),
    Arith,
    Abort,
}

/// A running state: the head and the current activation's frame count are here, the rest is in the words.
pub struct Live<'a> {
    pub code: &'a Code<'a>,
    pub words: &'a mut Words,
    /// The current function's nodes.
    pub part: Part<'a>,
    pub form: u32,
    pub word: u32,
    pub depth: usize,
    /// The first word of the current activation.
    pub at: usize,
    /// The number of its frames.
    pub own: u32,
    /// The first word after the top frame.
    pub top: usize,
}

/// Runs the fit state in the words on.
pub fn run(code: &Code, words: &mut Words, allowance: u64) -> (Outcome, u64) {
    let mut steps = 0;
    loop {
        match words[0] {
            4 => return (Outcome::Value(words[1] as i32), steps),
            5 => return (Outcome::Arith, steps),
            6 => return (Outcome::Abort, steps),
            _ if steps == allowance => return (Outcome::Spent, steps),
            3 => {
                words[0] = 4;
                steps += 1;
            }
            tag => {
                let mut live = Live::new(code, words);
                if tag == 1 {
                    live.enter(0);
                    steps += 1;
                }
                let (full, taken) = live.go(allowance - steps);
                steps += taken;
                if full {
                    return (Outcome::Full, steps);
                }
            }
        }
    }
}

impl<'a> Live<'a> {
    /// Takes the head out of the words.
    fn new(code: &'a Code<'a>, words: &'a mut Words) -> Live<'a> {
        let depth = words[2] as usize;
        let held: u32 = (0..depth).map(|i| words[activation(i) + 1]).sum();
        let top = FRAMES + FRAME * held as usize;
        let at = if depth == 0 { 0 } else { activation(depth - 1) };
        let function = if depth == 0 { 0 } else { words[at] as usize };
        let own = if depth == 0 { 0 } else { words[at + 1] };
        let (form, word) = (words[3], words[4]);
        Live { code, words, part: code.part(function), form, word, depth, at, own, top }
    }

    /// Steps until the allowance is used up, the next state passes a limit or main is left, and writes the head back.
    fn go(&mut self, allowance: u64) -> (bool, u64) {
        let mut steps = 0;
        while steps < allowance {
            let next = match self.form {
                5 => self.execute(),
                4 => self.evaluate(),
                _ => self.give(),
            };
            steps += u64::from(!matches!(next, Next::Full));
            match next {
                Next::On => {}
                Next::Full => {
                    self.put_head();
                    return (true, steps);
                }
                Next::Returned(c) => return self.end([3, c], steps),
                Next::Arith => return self.end([5, 0], steps),
                Next::Abort => return self.end([6, 0], steps),
            }
        }
        self.put_head();
        (false, steps)
    }

    /// Writes the head of a running state.
    fn put_head(&mut self) {
        self.words[self.at + 1] = self.own;
        self.words[..5].copy_from_slice(&[2, 0, self.depth as u32, self.form, self.word]);
    }

    /// Writes another state over the running one.
    fn end(&mut self, head: [u32; 2], steps: u64) -> (bool, u64) {
        self.words[..activation(self.depth)].fill(0);
        self.words[FRAMES..self.top].fill(0);
        self.words[..2].copy_from_slice(&head);
        (false, steps)
    }

    /// Makes an expression the control: a constant at once as its value.
    #[inline(always)]
    pub fn reach(&mut self, node: usize) {
        (self.form, self.word) = match self.part.kind(node) {
            0 => (2, self.part.b(node)),
            1 => (3, self.part.b(node)),
            15 => (1, 0),
            _ => (4, node as u32),
        };
    }

    /// Puts a frame on top, if the limit allows it, and goes on with an expression.
    #[inline(always)]
    fn push(&mut self, head: [u32; 5], node: usize) -> Next {
        if self.top == END {
            return Next::Full;
        }
        self.words[self.top..self.top + 5].copy_from_slice(&head);
        self.top += FRAME;
        self.own += 1;
        self.reach(node);
        Next::On
    }

    /// Puts a waiting statement on top and executes another.
    #[inline(always)]
    fn wait(&mut self, waiting: u32, first: u32) -> Next {
        if self.top == END {
            return Next::Full;
        }
        self.words[self.top..self.top + 2].copy_from_slice(&[4, waiting]);
        self.top += FRAME;
        self.own += 1;
        self.word = first;
        Next::On
    }

    /// Enters a function in a new activation, whose variables are set afterwards.
    #[inline(always)]
    pub fn enter(&mut self, function: usize) {
        if self.depth > 0 {
            self.words[self.at + 1] = self.own;
        }
        self.at = activation(self.depth);
        self.depth += 1;
        self.own = 0;
        self.part = self.code.part(function);
        self.words[self.at] = function as u32;
        self.words[self.at + 2] = self.code.vars(function) as u32;
        (self.form, self.word) = (5, self.part.reference(self.part.nodes.len() - 1));
    }

    /// Whether one more activation would pass the limit.
    #[inline(always)]
    pub fn deep(&self) -> bool {
        self.depth == CALLERS
    }

    /// Leaves the current activation and all its frames.
    pub fn leave(&mut self) -> Next {
        let bottom = self.top - FRAME * self.own as usize;
        self.words[bottom..self.top].fill(0);
        self.words[self.at..self.at + ACTIVATION].fill(0);
        self.top = bottom;
        self.depth -= 1;
        if self.depth == 0 {
            return Next::Returned(self.word);
        }
        self.at -= ACTIVATION;
        self.own = self.words[self.at + 1];
        self.part = self.code.part(self.words[self.at] as usize);
        Next::On
    }

    /// The step of an expression that is no constant.
    #[inline(always)]
    fn evaluate(&mut self) -> Next {
        let (part, node) = (self.part, self.word as usize);
        match part.kind(node) {
            2 => {
                let at = variable(self.at, part.b(node) as usize);
                (self.form, self.word) = (1 + self.words[at], self.words[at + 1]);
                Next::On
            }
            3 => {
                let right = node - 1;
                let op = u32::from(part.a(node));
                self.push([1, op, 0, 1, right as u32], part.before(right))
            }
            4 => self.push([3, node as u32 - 1, 0, 0, 0], part.before(node - 1)),
            _ => self.call(node),
        }
    }

    /// The step of a call.
    fn call(&mut self, node: usize) -> Next {
        let (callee, count) = (self.part.b(node), usize::from(self.part.a(node)));
        if count == 0 {
            if self.deep() {
                return Next::Full;
            }
            self.enter(callee as usize);
            return Next::On;
        }
        if self.top == END {
            return Next::Full;
        }
        let mut argument = node - 1;
        for slot in (0..count - 1).rev() {
            self.words[self.top + 4 + 2 * slot] = argument as u32;
            argument = self.part.before(argument);
        }
        self.words[self.top..self.top + 4].copy_from_slice(&[2, callee, 0, count as u32 - 1]);
        self.top += FRAME;
        self.own += 1;
        self.reach(argument);
        Next::On
    }

    /// The step of a statement.
    #[inline(always)]
    fn execute(&mut self) -> Next {
        if self.word == 0 {
            self.word = self.words[self.top - FRAME + 1];
            self.pop(2);
            return Next::On;
        }
        let (part, reference) = (self.part, self.word);
        let (node, form) = (((reference - 1) / 3) as usize, (reference - 1) % 3);
        let last = node - 1;
        match (form, part.kind(node)) {
            (1, _) => self.push([6, reference + 1, 0, 0, 0], part.before(last)),
            (2, _) => self.wait(reference - 2, part.reference(last)),
            (_, 7) => self.wait(part.reference(last), part.reference(part.before(last))),
            (_, 8) => self.push([5, part.b(node), 0, 0, 0], last),
            (_, 9) => {
                let at = variable(self.at, part.b(node) as usize);
                self.words[at..at + 2].fill(0);
                self.word = part.reference(last);
                Next::On
            }
            (_, 10) => {
                let first = part.before(last);
                let branches = [part.reference(first), part.reference(last)];
                self.push([6, branches[0], branches[1], 0, 0], part.before(first))
            }
            (_, 11) => {
                self.word = reference + 1;
                Next::On
            }
            (_, kind) => self.push([u32::from(kind) - 5, 0, 0, 0, 0], last),
        }
    }
}
