//! The proved start on memories of several lengths and contents.

use crate::proved;
use crate::report::Outcome;
use crate::{used, worked, Answer, TAIL};

/// The words of an image.
const IMAGE: usize = 16_384;

/// The lengths that are tried: none, short by one, exact, and longer.
const LENGTHS: [usize; 5] = [0, 1, IMAGE - 1, IMAGE, IMAGE + TAIL];

/// What a start should answer, from what the check answers.
fn expected(checked: Answer, length: usize) -> Answer {
    match checked {
        None if length < IMAGE => Some((15, 0, 0)),
        other => other,
    }
}

/// Whether the memory is as a start should leave it: main() where it was accepted, else untouched.
fn is_left(answer: Answer, before: &[u32], after: &[u32]) -> bool {
    if answer.is_some() {
        return before == after;
    }
    after[0] == 1
        && after[1..IMAGE].iter().all(|&word| word == 0)
        && after[IMAGE..] == before[IMAGE..]
}

/// Every worked file with every length of memory.
pub fn outcome() -> Outcome {
    let mut outcome = Outcome::default();
    for case in worked::groups().iter().flat_map(|group| &group.cases) {
        for length in LENGTHS {
            let before = used(length);
            let mut memory = before.clone();
            let got = proved::start(&case.file, &mut memory);
            let name = || format!("{}, {length} words", case.name);
            outcome.compare(name, &case.file, expected(case.expected, length), got);
            if is_left(got, &before, &memory) {
                outcome.passed += 1;
            } else {
                outcome.failed += 1;
            }
        }
    }
    outcome
}
