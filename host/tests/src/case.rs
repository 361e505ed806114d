//! Named files with their expected answers.

use crate::Answer;
use generators::File;

/// A file with its expected answer.
pub struct Case {
    pub name: String,
    pub file: Vec<u8>,
    pub expected: Answer,
}

/// Cases under one heading.
pub struct Group {
    pub name: &'static str,
    pub cases: Vec<Case>,
}

impl Group {
    /// An empty group.
    pub fn new(name: &'static str) -> Group {
        Group { name, cases: Vec::new() }
    }

    /// Adds bytes with the answer they must get.
    pub fn bytes(&mut self, name: impl Into<String>, file: Vec<u8>, expected: Answer) {
        self.cases.push(Case { name: name.into(), file, expected });
    }

    /// Adds a file that must be accepted.
    pub fn accepted(&mut self, name: impl Into<String>, file: File) {
        self.bytes(name, file.bytes(), None);
    }

    /// Adds a file that must be refused at a question and place, with item 0.
    pub fn refused(&mut self, name: impl Into<String>, file: File, question: u8, place: u32) {
        self.bytes(name, file.bytes(), Some((question, place, 0)));
    }

    /// Adds a file that must be refused by question 10 at a place for a variable.
    pub fn undeclared(&mut self, name: impl Into<String>, file: File, place: u32, item: u32) {
        self.bytes(name, file.bytes(), Some((10, place, item)));
    }
}
