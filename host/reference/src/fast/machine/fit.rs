//! Whether words are the image of a fit state, judged on the words.

use super::code::{activation, variable, Code};
use super::flow::{Flow, Tables};
use super::Words;
use crate::image::{ACTIVATION, FRAME, FRAMES, WORDS};
use crate::machine::run::{CALLERS, FRAMES as MOST};

/// What stands over frames gives a value of a type, or this for none.
const NONE: u8 = 255;

/// Whether all words are zero.
#[inline]
fn zero(words: &[u32]) -> bool {
    words.chunks(256).all(|chunk| chunk.iter().fold(0, |all, word| all | word) == 0)
}

/// Whether the words are the image of a fit state.
pub fn is_fit(code: &Code, words: &Words) -> bool {
    match words[0] {
        1 | 5 | 6 => zero(&words[1..]),
        3 | 4 => zero(&words[2..]),
        2 => running(code, words).is_some(),
        _ => false,
    }
}

/// None unless the words are the image of a fit running state.
fn running(code: &Code, words: &Words) -> Option<()> {
    let depth = words[2] as usize;
    let edges = words[1] == 0 && (1..=CALLERS).contains(&depth) && words[activation(0)] == 0;
    if !edges || !zero(&words[5..128]) || !zero(&words[activation(depth)..FRAMES]) {
        return None;
    }
    let mut tables: Vec<Option<Tables>> = (0..code.functions()).map(|_| None).collect();
    let mut bottom = FRAMES;
    for i in 0..depth {
        let at = activation(i);
        let function = words[at] as usize;
        let own = words[at + 1] as usize;
        let end = FRAMES + FRAME * MOST;
        if function >= code.functions() || own > (end - bottom) / FRAME {
            return None;
        }
        let tables = &*tables[function].get_or_insert_with(|| Tables::new(code, function));
        let result = code.result(function);
        let judge = Judge { code, words, tables, result, at };
        let held = judge.variables(code.vars(function))?;
        let top = bottom + FRAME * own;
        let (gives, found, returns) = match words.get(activation(i + 1)) {
            Some(&callee) if i + 1 < depth => {
                if callee as usize >= code.functions() {
                    return None;
                }
                (code.result(callee as usize), held, false)
            }
            _ => judge.control(held)?,
        };
        judge.frames(bottom, top, gives, found, returns)?;
        bottom = top;
    }
    zero(&words[bottom..WORDS]).then_some(())
}

/// One activation under judgement.
struct Judge<'a> {
    code: &'a Code<'a>,
    words: &'a Words,
    tables: &'a Tables<'a>,
    result: u8,
    at: usize,
}

impl Judge<'_> {
    /// The variables that hold values; none if an activation's words are not right.
    fn variables(&self, count: usize) -> Option<u64> {
        let own = &self.words[self.at..self.at + ACTIVATION];
        let rest = variable(self.at, count) - self.at;
        if own[2] as usize != count || !zero(&own[3..8]) || !zero(&own[rest..]) {
            return None;
        }
        let mut held = 0;
        let (pairs, _) = own[8..rest].as_chunks();
        for (x, (&[ty, word], &wanted)) in pairs.iter().zip(&self.tables.types).enumerate() {
            if ty != 0 {
                held |= 1 << x;
                typed(ty, word, wanted)?;
            } else if word != 0 {
                return None;
            }
        }
        Some(held)
    }

    /// What the control gives, the variables with values after it, and whether it returns.
    fn control(&self, held: u64) -> Option<(u8, u64, bool)> {
        let word = self.words[4];
        match self.words[3] {
            1 if word == 0 => Some((0, held, false)),
            2 => Some((1, held, false)),
            3 if word < 2 => Some((2, held, false)),
            4 => {
                let ty = self.tables.type_of(self.code, word)?;
                let kind = self.tables.part.kind(word as usize);
                let reads = self.tables.expr(self.code, word, ty)?;
                (matches!(kind, 2..=5) && reads & !held == 0).then_some((ty, held, false))
            }
            5 => {
                let flow = self.tables.stmt(word)?;
                Some((NONE, flow.through(held)?, flow.returns))
            }
            _ => None,
        }
    }

    /// The frames from the top down to the bottom.
    fn frames(
        &self,
        bottom: usize,
        top: usize,
        gives: u8,
        found: u64,
        returns: bool,
    ) -> Option<()> {
        let (mut gives, mut found, mut returns) = (gives, found, returns);
        let (frames, _) = self.words[bottom..top].as_chunks::<FRAME>();
        for frame in frames.iter().rev() {
            (gives, found) = match frame[0] {
                1 => (self.operand(frame, gives, found)?, found),
                2 => (self.argument(frame, gives, found)?, found),
                _ => self.plain(frame, gives, found, &mut returns)?,
            };
        }
        (gives == NONE && returns).then_some(())
    }

    /// What an operator's frame gives.
    fn operand(&self, frame: &[u32; FRAME], gives: u8, found: u64) -> Option<u8> {
        let [_, op, done, rest, slot, word, ..] = *frame;
        let held = done == 1 && rest == 0 && slot == 1;
        let waits = done == 0 && rest == 1 && word == 0;
        if gives != 1 || op > 15 || !(held || waits) || !zero(&frame[6..]) {
            return None;
        }
        if waits && self.tables.expr(self.code, slot, 1)? & !found != 0 {
            return None;
        }
        Some(1 + u8::from(op >= 10))
    }

    /// What a call's frame gives.
    fn argument(&self, frame: &[u32; FRAME], gives: u8, found: u64) -> Option<u8> {
        let (callee, done, rest) = (frame[1] as usize, frame[2] as usize, frame[3] as usize);
        if callee >= self.code.functions() {
            return None;
        }
        let count = self.code.params(callee);
        if done > 7 || rest > 7 || done + rest + 1 != count {
            return None;
        }
        if self.code.param(callee, done) != gives || !zero(&frame[4 + 2 * (count - 1)..]) {
            return None;
        }
        for i in 0..count - 1 {
            let [x, y] = [frame[4 + 2 * i], frame[5 + 2 * i]];
            if i < done {
                typed(x, y, self.code.param(callee, i))?;
            } else {
                let reads = self.tables.expr(self.code, x, self.code.param(callee, i + 1))?;
                if y != 0 || reads & !found != 0 {
                    return None;
                }
            }
        }
        Some(self.code.result(callee))
    }

    /// What a frame without slots gives, and the variables with values after it.
    fn plain(
        &self,
        frame: &[u32; FRAME],
        gives: u8,
        found: u64,
        returns: &mut bool,
    ) -> Option<(u8, u64)> {
        let [kind, x, y, ..] = *frame;
        let used = [0, 0, 0, 2, 2, 2, 3, 1, 1, 1].get(kind as usize)?;
        if !zero(&frame[*used..]) {
            return None;
        }
        let flow = |flow: Flow, returns: &mut bool| {
            *returns |= flow.returns;
            flow.through(found).map(|left| (NONE, left))
        };
        match (kind, gives) {
            (3, 2) if self.tables.expr(self.code, x, 2)? & !found == 0 => Some((2, found)),
            (4, NONE) => flow(self.tables.stmt(x)?, returns),
            (5, 1 | 2) if self.tables.types.get(x as usize) == Some(&gives) => {
                Some((NONE, found | 1 << x))
            }
            (6, 2) => {
                let (first, second) = (self.tables.stmt(x)?, self.tables.stmt(y)?);
                *returns |= first.returns && second.returns;
                Some((NONE, first.through(found)? & second.through(found)?))
            }
            (7, ty) if ty == self.result => {
                *returns = true;
                Some((NONE, u64::MAX))
            }
            (8, 2) => Some((NONE, found)),
            (9, 0..=2) => Some((NONE, found)),
            _ => None,
        }
    }
}

/// None unless a value's two words are right and of a type.
#[inline]
fn typed(ty: u32, word: u32, wanted: u8) -> Option<()> {
    (ty == u32::from(wanted) && (ty == 1 || (ty == 2 && word < 2))).then_some(())
}
