//! Functions whose use of the stack is known, which show that it is measured rightly.

use super::region::{Called, Region, UNIT};
use super::trial::{measured, Measured};
use crate::report::Outcome;
use std::arch::naked_asm;

/// How far below its stack pointer each function reaches.
const FAR: usize = 10_000;

/// The bytes of the call itself: eight to keep the pointer a multiple of 16, the seventh word and the return address.
const CALL: usize = 24;

/// Writes one word far below.
#[unsafe(naked)]
extern "C" fn writes() {
    naked_asm!("mov qword ptr [rsp - {far}], 1", "xor eax, eax", "ret", far = const FAR)
}

/// Touches one word far below and leaves it as it is, as a compiler touches the pages of a large frame.
#[unsafe(naked)]
extern "C" fn touches() {
    naked_asm!("or qword ptr [rsp - {far}], 0", "xor eax, eax", "ret", far = const FAR)
}

/// Gives its ten words in turn, as a number of decimal digits.
#[rustfmt::skip]
extern "C" fn digits(
    a: u64, b: u64, c: u64, d: u64, e: u64, f: u64, g: u64, h: u64, i: u64, j: u64,
) -> u64 {
    [a, b, c, d, e, f, g, h, i, j].into_iter().fold(0, |number, digit| 10 * number + digit)
}

/// Whether words come over, and a write and a touch are measured as what they are.
pub fn outcome(region: &mut Region) -> Outcome {
    let mut outcome = Outcome::default();
    let called =
        |function, count| Called { function, words: [1, 2, 3, 4, 5, 6, 7, 8, 9, 0], count };
    let (answer, _) = region.painted(&called(digits as *const () as usize, 10));
    outcome.same(|| "ten words".to_string(), &[], 1_234_567_890, answer);
    let needs = (FAR + CALL).next_multiple_of(UNIT);
    let known = [
        ("a word written", writes as *const () as usize, FAR + CALL),
        ("a word touched", touches as *const () as usize, CALL),
    ];
    for (name, function, written) in known {
        let (_, got) = measured(region, &called(function, 7), &mut || ());
        outcome.same(|| name.to_string(), &[], Measured { written, needs }, got);
    }
    outcome
}
