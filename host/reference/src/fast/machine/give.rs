//! The step that gives a value to the top frame.

use super::code::{variable, Code};
use super::run::{Live, Next};
use crate::image::FRAME;

/// The form and the word of an operator's result; none where it raises arith.
#[inline(always)]
fn apply(code: &Code, op: u32, left: u32, right: u32) -> Option<(u32, u32)> {
    let (l, r) = (left as i32, right as i32);
    let int = |word: i32| Some((2, word as u32));
    let truth = |b: bool| Some((3, u32::from(b)));
    match op {
        0 => int(l.wrapping_add(r)),
        1 => int(l.wrapping_sub(r)),
        2 => int(l.wrapping_mul(r)),
        3 => l.checked_div(r).and_then(int),
        4 => l.checked_rem(r).and_then(int),
        5 if right & code.outside == 0 => int(l.wrapping_shl(right)),
        6 if right & code.outside == 0 => int(l.wrapping_shr(right)),
        5 | 6 => None,
        7 => int(l & r),
        8 => int(l | r),
        9 => int(l ^ r),
        10 => truth(l < r),
        11 => truth(l <= r),
        12 => truth(l > r),
        13 => truth(l >= r),
        14 => truth(l == r),
        _ => truth(l != r),
    }
}

impl Live<'_> {
    /// Takes the top frame away, of which so many words may not be zero.
    #[inline(always)]
    pub fn pop(&mut self, used: usize) {
        self.top -= FRAME;
        self.own -= 1;
        self.words[self.top..self.top + used].fill(0);
    }

    /// Nop is executed next.
    #[inline(always)]
    fn done(&mut self) -> Next {
        (self.form, self.word) = (5, 0);
        Next::On
    }

    /// The step of a value.
    #[inline(always)]
    pub fn give(&mut self) -> Next {
        let frame = self.top - FRAME;
        match self.words[frame] {
            1 => self.operand(frame),
            2 => self.argument(frame),
            3 => {
                let right = self.words[frame + 1] as usize;
                self.pop(2);
                if self.word == 1 {
                    self.reach(right);
                }
                Next::On
            }
            5 => {
                let at = variable(self.at, self.words[frame + 1] as usize);
                self.words[at..at + 2].copy_from_slice(&[self.form - 1, self.word]);
                self.pop(2);
                self.done()
            }
            6 => {
                let branch = self.words[frame + 2 - self.word as usize];
                self.pop(3);
                (self.form, self.word) = (5, branch);
                Next::On
            }
            7 => self.leave(),
            8 if self.word == 0 => Next::Abort,
            _ => {
                self.pop(1);
                self.done()
            }
        }
    }

    /// An operator's operand is done.
    #[inline(always)]
    fn operand(&mut self, frame: usize) -> Next {
        let [_, op, done, _, slot, left] = *self.words[frame..].first_chunk().unwrap_or(&[0; 6]);
        if done == 0 {
            self.words[frame + 2..frame + 6].copy_from_slice(&[1, 0, 1, self.word]);
            self.reach(slot as usize);
            return Next::On;
        }
        match apply(self.code, op, left, self.word) {
            None => Next::Arith,
            Some(result) => {
                self.pop(6);
                (self.form, self.word) = result;
                Next::On
            }
        }
    }

    /// A call's argument is done: the next one is evaluated, or the callee entered.
    fn argument(&mut self, frame: usize) -> Next {
        let [_, callee, done, rest] = *self.words[frame..].first_chunk().unwrap_or(&[0; 4]);
        let slot = frame + 4 + 2 * done as usize;
        let value = [self.form - 1, self.word];
        if rest > 0 {
            let next = self.words[slot] as usize;
            self.words[slot..slot + 2].copy_from_slice(&value);
            self.words[frame + 2..frame + 4].copy_from_slice(&[done + 1, rest - 1]);
            self.reach(next);
            return Next::On;
        }
        if self.deep() {
            return Next::Full;
        }
        let mut arguments = [0; 14];
        arguments.copy_from_slice(&self.words[frame + 4..frame + 18]);
        self.pop(18);
        self.enter(callee as usize);
        let first = variable(self.at, 0);
        let used = 2 * done as usize;
        self.words[first..first + used].copy_from_slice(&arguments[..used]);
        self.words[first + used..first + used + 2].copy_from_slice(&value);
        Next::On
    }
}
