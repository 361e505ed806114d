//! The same check written for speed: it works on the bytes and judges function by function.
//!
//! From question 7 on each question is about one function's nodes and the function records, so
//! the least pair of question and place over the functions is the whole file's answer.

mod body;
mod fields;
pub mod machine;
mod reads;
mod stack;

use crate::Refusal;

/// The bytes of one record.
pub(crate) const RECORD: usize = 12;

/// The file's function records, for callees.
#[derive(Clone, Copy)]
pub(crate) struct Functions<'a> {
    bytes: &'a [u8],
}

impl Functions<'_> {
    /// The number of functions.
    #[inline]
    pub fn count(self) -> u32 {
        (self.bytes.len() / RECORD) as u32
    }

    /// One byte of a function's record.
    #[inline]
    fn byte(self, function: usize, at: usize) -> u8 {
        self.bytes[function * RECORD + at]
    }

    /// A function's result type.
    #[inline]
    pub fn result(self, function: usize) -> u8 {
        self.byte(function, 2)
    }

    /// A function's number of parameters.
    #[inline]
    pub fn params(self, function: usize) -> u8 {
        self.byte(function, 3)
    }

    /// A function's number of variables.
    #[inline]
    pub fn vars(self, function: usize) -> u8 {
        self.byte(function, 4)
    }

    /// A function's mask of bool parameters.
    #[inline]
    pub fn mask(self, function: usize) -> u8 {
        self.byte(function, 5)
    }

    /// A function's count of nodes.
    pub fn nodes(self, function: usize) -> u32 {
        word(self.bytes, function * RECORD + 8)
    }
}

/// The little-endian number at an offset.
#[inline]
pub(crate) fn word(bytes: &[u8], at: usize) -> u32 {
    let four = &bytes[at..at + 4];
    u32::from_le_bytes([four[0], four[1], four[2], four[3]])
}

/// Puts questions 1 to 14 and gives the first refusal, or none if the file is accepted.
pub fn check(file: &[u8]) -> Option<Refusal> {
    let (functions, nodes) = match head(file) {
        Ok(parts) => parts,
        Err(question) => return Some((question, 0, 0)),
    };
    let count = functions.count() as usize;
    if let Some(bad) = (0..count).find(|&i| !function_right(functions, i)) {
        return Some((4, 1 + bad as u32, 0));
    }
    let sum: u64 = (0..count).map(|i| u64::from(functions.nodes(i))).sum();
    if sum != (nodes.len() / RECORD) as u64 {
        return Some((5, 0, 0));
    }
    if functions.params(0) != 0 || functions.result(0) != 1 {
        return Some((6, 1, 0));
    }
    judge_bodies(functions, nodes)
}

/// Questions 1 to 3: cuts the file into function and node records.
fn head(file: &[u8]) -> Result<(Functions<'_>, &[u8]), u8> {
    if !file.len().is_multiple_of(RECORD) || file.len() < 36 {
        return Err(1);
    }
    let count = usize::from(file[2]) + 256 * usize::from(file[3]);
    let nodes = word(file, 4) as usize;
    let counts = (1..=128).contains(&count) && (1..=4096).contains(&nodes);
    if file[..2] != *b"PR" || !counts || word(file, 8) > 1 {
        return Err(2);
    }
    if file.len() != RECORD * (1 + count + nodes) {
        return Err(3);
    }
    let (bytes, nodes) = file[RECORD..].split_at(RECORD * count);
    Ok((Functions { bytes }, nodes))
}

/// Question 4 of one function record.
fn function_right(functions: Functions<'_>, i: usize) -> bool {
    let r = &functions.bytes[i * RECORD..(i + 1) * RECORD];
    let (p, v, mask) = (r[3], r[4], u32::from(r[5]));
    r[..2] == *b"FN"
        && r[2] <= 2
        && p <= 8
        && p <= v
        && v <= 64
        && mask >> p == 0
        && r[6] == 0
        && r[7] == 0
        && word(r, 8) != 0
}

/// Questions 7 to 14: the least refusal over the functions.
fn judge_bodies(functions: Functions<'_>, nodes: &[u8]) -> Option<Refusal> {
    let mut space = body::Space::new(nodes.len() / RECORD);
    let mut rest = nodes;
    let mut base = 1 + functions.count();
    let mut least: Option<Refusal> = None;
    for i in 0..functions.count() as usize {
        let count = functions.nodes(i);
        let (part, after) = rest.split_at(RECORD * count as usize);
        if let Some(found) = body::judge(functions, i, part, base, &mut space) {
            least = Some(least.map_or(found, |low| low.min(found)));
        }
        rest = after;
        base += count;
    }
    least
}
