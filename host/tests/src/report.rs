//! The printed lines and the sum of all groups.

use crate::Answer;
use std::fmt::Debug;

/// The most differences printed for a group.
const SHOWN: usize = 5;

/// A file whose answer was not the expected one.
pub struct Difference {
    pub name: String,
    pub expected: String,
    pub got: String,
    pub file: Vec<u8>,
}

/// What came of a group on one side.
#[derive(Default)]
pub struct Outcome {
    pub passed: usize,
    pub failed: usize,
    /// The first few differences.
    pub differences: Vec<Difference>,
}

impl Outcome {
    /// Counts one comparison of answers; the name is made only for a difference.
    pub fn compare(
        &mut self,
        name: impl FnOnce() -> String,
        file: &[u8],
        expected: Answer,
        got: Answer,
    ) {
        self.judge(expected == got, file, || (name(), shown(expected), shown(got)));
    }

    /// Counts one comparison of anything else.
    pub fn same<T: PartialEq + Debug>(
        &mut self,
        name: impl FnOnce() -> String,
        file: &[u8],
        expected: T,
        got: T,
    ) {
        let alike = expected == got;
        self.judge(alike, file, || (name(), format!("{expected:?}"), format!("{got:?}")));
    }

    /// Counts one comparison of memories or logs and names the first word, or byte, that differs.
    pub fn words<T: PartialEq + Debug>(
        &mut self,
        name: impl FnOnce() -> String,
        file: &[u8],
        expected: &[T],
        got: &[T],
    ) {
        self.judge(expected == got, file, || {
            let at = expected.iter().zip(got).position(|(e, g)| e != g);
            let at = at.unwrap_or(expected.len().min(got.len()));
            let word = |words: &[T]| format!("word {at} {:?}", words.get(at));
            (name(), word(expected), word(got))
        });
    }

    /// Counts a comparison; name, expected and got are made only for a difference.
    fn judge(&mut self, alike: bool, file: &[u8], told: impl FnOnce() -> (String, String, String)) {
        if alike {
            self.passed += 1;
            return;
        }
        self.failed += 1;
        if self.differences.len() < SHOWN {
            let ((name, expected, got), file) = (told(), file.to_vec());
            self.differences.push(Difference { name, expected, got, file });
        }
    }

    /// Adds what another thread found.
    pub fn add(&mut self, other: Outcome) {
        self.passed += other.passed;
        self.failed += other.failed;
        self.differences.extend(other.differences);
        self.differences.truncate(SHOWN);
    }

    /// Prints the group's line and its first differences.
    pub fn print(&self, group: &str, side: &str) {
        let verdict =
            if self.failed == 0 { "ok".to_string() } else { format!("FAILED {}", self.failed) };
        println!("{group:<32} {side:<10} {:>7} {verdict}", self.passed + self.failed);
        for d in &self.differences {
            let Difference { name, expected, got, file } = d;
            println!("  {name}: expected {expected}, got {got}\n    {}", hex(file));
        }
    }
}

/// An answer in words.
pub fn shown(answer: Answer) -> String {
    match answer {
        None => "accepted".to_string(),
        Some((question, place, item)) => format!("refused {question} place {place} item {item}"),
    }
}

/// A file's bytes in hex.
pub fn hex(file: &[u8]) -> String {
    file.iter().map(|byte| format!("{byte:02x}")).collect()
}
