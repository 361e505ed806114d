//! The records of an accepted file, and places in an image.

use super::super::RECORD;
use crate::image::{ACTIVATION, ACTIVATIONS, ACTIVATION_HEAD};

/// A node's record.
pub type Record = [u8; RECORD];

/// The functions and nodes of an accepted file.
pub struct Code<'a> {
    /// The bits that no shift count may have: in edition 1 all but the low five.
    pub outside: u32,
    functions: &'a [Record],
    nodes: &'a [Record],
    /// The first node of each function.
    first: [u16; 129],
}

/// The little-endian number in four bytes of a record.
#[inline(always)]
fn word(record: &Record, at: usize) -> u32 {
    u32::from_le_bytes([record[at], record[at + 1], record[at + 2], record[at + 3]])
}

impl<'a> Code<'a> {
    /// The records of a file that passed the check.
    pub fn new(file: &'a [u8]) -> Code<'a> {
        let (records, _) = file.as_chunks();
        let (functions, nodes) = records[1..].split_at(usize::from(file[2]));
        let mut first = [0; 129];
        for (i, function) in functions.iter().enumerate() {
            first[i + 1] = first[i] + word(function, 8) as u16;
        }
        let outside = if file[8] == 0 { 0 } else { !31 };
        Code { outside, functions, nodes, first }
    }

    /// The number of functions.
    pub fn functions(&self) -> usize {
        self.functions.len()
    }

    /// A function's nodes.
    #[inline]
    pub fn part(&self, function: usize) -> Part<'a> {
        let (first, end) = (self.first[function], self.first[function + 1]);
        Part { nodes: &self.nodes[usize::from(first)..usize::from(end)] }
    }

    /// A function's result type.
    pub fn result(&self, function: usize) -> u8 {
        self.functions[function][2]
    }

    /// A function's number of parameters.
    pub fn params(&self, function: usize) -> usize {
        usize::from(self.functions[function][3])
    }

    /// A function's number of variables.
    #[inline]
    pub fn vars(&self, function: usize) -> usize {
        usize::from(self.functions[function][4])
    }

    /// The type of a function's parameter.
    pub fn param(&self, function: usize, i: usize) -> u8 {
        1 + ((self.functions[function][5] >> i) & 1)
    }
}

/// The nodes of one function.
#[derive(Clone, Copy)]
pub struct Part<'a> {
    pub nodes: &'a [Record],
}

impl Part<'_> {
    /// A node's kind.
    #[inline(always)]
    pub fn kind(self, node: usize) -> u8 {
        self.nodes[node][2]
    }

    /// A node's a.
    #[inline(always)]
    pub fn a(self, node: usize) -> u8 {
        self.nodes[node][3]
    }

    /// A node's b.
    #[inline(always)]
    pub fn b(self, node: usize) -> u32 {
        word(&self.nodes[node], 4)
    }

    /// The root of the subtree that stands before a node's subtree.
    #[inline(always)]
    pub fn before(self, node: usize) -> usize {
        node - word(&self.nodes[node], 8) as usize
    }

    /// The word of a statement's node: nop is one and the same.
    #[inline(always)]
    pub fn reference(self, node: usize) -> u32 {
        if self.kind(node) == 6 {
            0
        } else {
            1 + 3 * node as u32
        }
    }
}

/// The first word of an activation.
#[inline(always)]
pub fn activation(number: usize) -> usize {
    ACTIVATIONS + ACTIVATION * number
}

/// The first word of a variable.
#[inline(always)]
pub fn variable(activation: usize, x: usize) -> usize {
    activation + ACTIVATION_HEAD + 2 * x
}
