//! The records of a procedure file as structs.

use std::ops::Range;

/// The bytes of one record.
pub const RECORD: usize = 12;

/// The header's fields.
pub struct Header {
    pub mark: [u8; 2],
    pub functions: u16,
    pub nodes: u32,
    pub edition: u8,
    pub zeros: [u8; 3],
}

/// A function record's fields.
pub struct Function {
    pub mark: [u8; 2],
    pub result: u8,
    pub params: u8,
    pub vars: u8,
    pub mask: u8,
    pub zeros: [u8; 2],
    pub count: u32,
}

/// A node record's fields.
pub struct Node {
    pub mark: [u8; 2],
    pub kind: u8,
    pub a: u8,
    pub b: u32,
    pub size: u32,
}

/// A file that passed questions 1 to 6; `parts` has the node numbers of each function.
pub struct Program {
    pub edition: u8,
    pub functions: Vec<Function>,
    pub nodes: Vec<Node>,
    pub parts: Vec<Range<usize>>,
}

impl Program {
    /// The place of a function's record.
    pub fn function_place(&self, function: usize) -> u32 {
        1 + function as u32
    }

    /// The place of a node's record.
    pub fn node_place(&self, node: usize) -> u32 {
        (1 + self.functions.len() + node) as u32
    }

    /// The functions with their numbers and their parts.
    pub fn each_part(&self) -> impl Iterator<Item = (usize, &Function, Range<usize>)> {
        let parts = self.functions.iter().zip(&self.parts);
        parts.enumerate().map(|(i, (function, part))| (i, function, part.clone()))
    }
}

/// A record of 12 bytes.
pub type Bytes = [u8; RECORD];

/// The records of a file whose length is a multiple of 12.
pub fn records(file: &[u8]) -> Vec<Bytes> {
    file.chunks_exact(RECORD).map(|chunk| std::array::from_fn(|i| chunk[i])).collect()
}

/// The little-endian number in four bytes of a record.
fn word(r: &Bytes, at: usize) -> u32 {
    u32::from_le_bytes([r[at], r[at + 1], r[at + 2], r[at + 3]])
}

/// Reads a header.
pub fn header(r: &Bytes) -> Header {
    Header {
        mark: [r[0], r[1]],
        functions: u16::from_le_bytes([r[2], r[3]]),
        nodes: word(r, 4),
        edition: r[8],
        zeros: [r[9], r[10], r[11]],
    }
}

/// Reads a function record.
pub fn function(r: &Bytes) -> Function {
    Function {
        mark: [r[0], r[1]],
        result: r[2],
        params: r[3],
        vars: r[4],
        mask: r[5],
        zeros: [r[6], r[7]],
        count: word(r, 8),
    }
}

/// Reads a node record.
pub fn node(r: &Bytes) -> Node {
    Node { mark: [r[0], r[1]], kind: r[2], a: r[3], b: word(r, 4), size: word(r, 8) }
}
