//! Questions 1 to 6: the length, the header and the function records.

use crate::record::{self, Function, Header, Program, RECORD};
use crate::Refusal;

/// Puts questions 1 to 6 and gives the file's records.
pub fn parse(file: &[u8]) -> Result<Program, Refusal> {
    if !file.len().is_multiple_of(RECORD) || file.len() < 36 {
        return Err((1, 0, 0));
    }
    let records = record::records(file);
    let header = record::header(&records[0]);
    if !header_right(&header) {
        return Err((2, 0, 0));
    }
    let (count, nodes) = (header.functions as usize, header.nodes as usize);
    if records.len() != 1 + count + nodes {
        return Err((3, 0, 0));
    }
    let functions: Vec<Function> = records[1..1 + count].iter().map(record::function).collect();
    judge_functions(&functions, nodes)?;
    let parts = parts(&functions);
    let nodes = records[1 + count..].iter().map(record::node).collect();
    Ok(Program { edition: header.edition, functions, nodes, parts })
}

/// Question 2: the header's mark, counts, edition and zeros.
fn header_right(h: &Header) -> bool {
    h.mark == *b"PR"
        && (1..=128).contains(&h.functions)
        && (1..=4096).contains(&h.nodes)
        && h.edition <= 1
        && h.zeros == [0; 3]
}

/// Question 4 of one function record.
fn function_right(f: &Function) -> bool {
    let stray_bit = (u32::from(f.params)..8).any(|i| (f.mask >> i) & 1 == 1);
    f.mark == *b"FN"
        && f.result <= 2
        && f.params <= 8
        && f.params <= f.vars
        && f.vars <= 64
        && !stray_bit
        && f.zeros == [0; 2]
        && f.count >= 1
}

/// Questions 4, 5 and 6 of all function records.
fn judge_functions(functions: &[Function], nodes: usize) -> Result<(), Refusal> {
    if let Some(bad) = functions.iter().position(|f| !function_right(f)) {
        return Err((4, 1 + bad as u32, 0));
    }
    let sum: u64 = functions.iter().map(|f| u64::from(f.count)).sum();
    if sum != nodes as u64 {
        return Err((5, 0, 0));
    }
    let main = &functions[0];
    if main.params != 0 || main.result != 1 {
        return Err((6, 1, 0));
    }
    Ok(())
}

/// The node numbers of each function's part.
fn parts(functions: &[Function]) -> Vec<std::ops::Range<usize>> {
    let mut first = 0;
    let mut parts = Vec::new();
    for f in functions {
        let end = first + f.count as usize;
        parts.push(first..end);
        first = end;
    }
    parts
}
