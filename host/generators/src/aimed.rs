//! Defects aimed at one question each.
//!
//! Each takes a file that passes the check; where the file has no place for the defect it is
//! left as it is, and a defect may happen to fail an earlier question.

use crate::aimed_reads::reads;
use crate::record::{File, NodeRecord};
use crate::rng::Rng;

/// The bytes of a file with a defect aimed at a question from 1 to 14.
pub fn spoil(question: u8, file: &File, rng: &mut Rng) -> Vec<u8> {
    let mut file = file.clone();
    if question == 1 {
        return length(file.bytes(), rng);
    }
    apply(question, &mut file, rng);
    file.bytes()
}

/// The bytes of a file with two or three defects aimed at questions from 7 to 14.
pub fn spoil_twice(file: &File, rng: &mut Rng) -> Vec<u8> {
    let mut file = file.clone();
    for _ in 0..rng.between(2, 3) {
        let question = if rng.one_in(4) { rng.between(7, 14) } else { rng.between(9, 14) };
        apply(question as u8, &mut file, rng);
    }
    file.bytes()
}

/// The bytes of a file with a defect aimed at each of two questions from 2 to 14.
pub fn spoil_for(questions: [u8; 2], file: &File, rng: &mut Rng) -> Vec<u8> {
    let mut file = file.clone();
    questions.iter().for_each(|question| apply(*question, &mut file, rng));
    file.bytes()
}

/// Puts a defect aimed at a question from 2 to 14 into a file.
fn apply(question: u8, file: &mut File, rng: &mut Rng) {
    match question {
        2 => header(file, rng),
        3 => records(file, rng),
        4 => function(file, rng),
        5 => counts(file, rng),
        6 => main(file, rng),
        7 => fields(file, rng),
        8 => sizes(file, rng),
        9 => sorts(file, rng),
        10 => decls(file, rng),
        11 => scopes(file, rng),
        12 => types(file, rng),
        13 => reads(file, rng),
        _ => returns(file, rng),
    }
}

/// Question 1: a length that is no multiple of 12 or below 36.
fn length(mut bytes: Vec<u8>, rng: &mut Rng) -> Vec<u8> {
    if rng.one_in(3) {
        bytes.truncate(rng.below(36));
    } else {
        bytes.truncate(bytes.len() - rng.between(1, 11));
    }
    bytes
}

/// Question 2: a wrong field of the header.
fn header(file: &mut File, rng: &mut Rng) {
    let flip = 1 << rng.below(8);
    match rng.below(6) {
        0 => file.header.mark[rng.below(2)] ^= flip,
        1 => file.header.functions = 0,
        2 => file.header.functions = rng.between(129, 65535) as u16,
        3 => file.header.nodes = 0,
        4 => file.header.nodes = rng.edge_word().max(4097),
        _ => match rng.below(4) {
            0 => file.header.edition = rng.beside().between(2, 255) as u8,
            at => file.header.zeros[at - 1] ^= flip,
        },
    }
}

/// Question 3: more or fewer records than the header says.
fn records(file: &mut File, rng: &mut Rng) {
    match rng.below(4) {
        0 if file.header.functions < 128 => file.header.functions += 1,
        1 => file.header.nodes = rng.between(1, 4096) as u32,
        2 if file.nodes.len() > 1 => file.nodes.truncate(rng.between(1, file.nodes.len() - 1)),
        _ => file.nodes.push(NodeRecord::new(6, 0, 0, 1)),
    }
}

/// Question 4: a wrong field of a function record.
fn function(file: &mut File, rng: &mut Rng) {
    let at = rng.below(file.functions.len());
    let f = &mut file.functions[at];
    let flip = 1 << rng.below(8);
    match rng.below(8) {
        0 => f.mark[rng.below(2)] ^= flip,
        1 => f.result = rng.between(3, 255) as u8,
        2 => f.params = rng.between(9, 255) as u8,
        3 => f.vars = rng.between(65, 255) as u8,
        4 if f.params > 0 => f.vars = rng.below(usize::from(f.params)) as u8,
        5 if f.params < 8 => f.mask |= 1 << rng.between(usize::from(f.params), 7),
        6 => f.count = 0,
        _ => f.zeros[rng.below(2)] ^= flip,
    }
}

/// Question 5: part counts of another sum, also one that wraps to the right one at 32 bits.
fn counts(file: &mut File, rng: &mut Rng) {
    let at = rng.below(file.functions.len());
    let next = (at + 1) % file.functions.len();
    match rng.below(3) {
        0 if at != next => {
            let (one, other) = (file.functions[at].count, file.functions[next].count);
            file.functions[at].count = u32::MAX - rng.below(9) as u32;
            let wrapped = one.wrapping_add(other).wrapping_sub(file.functions[at].count);
            file.functions[next].count = wrapped;
        }
        1 => file.functions[at].count = rng.edge_word().max(1),
        _ => file.functions[at].count += 1,
    }
}

/// Question 6: main with parameters or another result.
fn main(file: &mut File, rng: &mut Rng) {
    let f = &mut file.functions[0];
    match rng.below(3) {
        0 => f.result = 0,
        1 => f.result = 2,
        _ => {
            f.params = rng.between(1, 8) as u8;
            f.vars = f.vars.max(f.params);
        }
    }
}

/// Question 7: a wrong field of a node.
fn fields(file: &mut File, rng: &mut Rng) {
    let at = rng.below(file.nodes.len());
    let node = &mut file.nodes[at];
    match rng.below(5) {
        0 => node.mark[rng.below(2)] ^= 1 << rng.below(8),
        1 => node.kind = rng.between(16, 255) as u8,
        2 => node.a = node.a.wrapping_add(rng.between(1, 255) as u8),
        3 => node.b = node.b.wrapping_add(1 << rng.below(32)),
        _ => node.b = rng.edge_word(),
    }
}

/// Question 8: a wrong size, or parts that are cut elsewhere.
fn sizes(file: &mut File, rng: &mut Rng) {
    let at = rng.below(file.nodes.len());
    let cut = rng.below(file.functions.len());
    match rng.below(4) {
        0 if cut > 0 && file.functions[cut].count > 1 => {
            file.functions[cut].count -= 1;
            file.functions[cut - 1].count += 1;
        }
        1 => file.nodes[at].size = rng.edge_word(),
        2 => file.nodes[at].size = file.nodes[at].size.wrapping_add(1),
        _ => file.nodes[at].size = file.nodes[at].size.wrapping_sub(1),
    }
}

/// The numbers of the nodes that pass a test.
pub(crate) fn where_nodes(file: &File, test: impl Fn(&NodeRecord) -> bool) -> Vec<usize> {
    (0..file.nodes.len()).filter(|&i| test(&file.nodes[i])).collect()
}

/// Question 9: a leaf of the other sort.
fn sorts(file: &mut File, rng: &mut Rng) {
    let leaves = where_nodes(file, |node| node.size == 1);
    if let Some(&at) = rng.pick(&leaves) {
        let kind = if file.nodes[at].kind == 6 { [0, 15][rng.below(2)] } else { 6 };
        file.nodes[at] = NodeRecord::new(kind, 0, 0, 1);
    }
}

/// Question 10: a variable declared twice, or not at all.
fn decls(file: &mut File, rng: &mut Rng) {
    let decls = where_nodes(file, |node| node.kind == 9);
    let picked = rng.pick(&decls).copied();
    let function = rng.below(file.functions.len());
    match picked {
        Some(at) if rng.one_in(2) => {
            let f = &file.functions[file.owner(at)];
            let (params, vars) = (f.params, f.vars);
            file.nodes[at].b = rng.between(params.into(), usize::from(vars.max(1)) - 1) as u32;
        }
        _ if file.functions[function].vars < 64 => file.functions[function].vars += 1,
        _ => {}
    }
}

/// Gives one node of a kind in the list another variable of its function.
pub(crate) fn rename(file: &mut File, rng: &mut Rng, kinds: &[u8]) {
    let named = where_nodes(file, |node| kinds.contains(&node.kind));
    if let Some(&at) = rng.pick(&named) {
        let vars = file.functions[file.owner(at)].vars;
        file.nodes[at].b = rng.below(usize::from(vars)) as u32;
    }
}

/// Question 11: a variable named outside its decl, where there is such a place.
fn scopes(file: &mut File, rng: &mut Rng) {
    let decls = where_nodes(file, |node| node.kind == 9);
    let Some(&decl) = rng.pick(&decls) else {
        return rename(file, rng, &[2, 8]);
    };
    let NodeRecord { b, size, .. } = file.nodes[decl];
    let owner = file.owner(decl);
    let first = file.first_node(owner);
    let part = first..first + file.functions[owner].count as usize;
    let outside = |at: usize| at as u64 + u64::from(size) <= decl as u64 || decl < at;
    let names = |at: &usize| outside(*at) && matches!(file.nodes[*at].kind, 0 | 1 | 2 | 8);
    let places: Vec<usize> = part.filter(names).collect();
    if let Some(&at) = rng.pick(&places) {
        let node = &mut file.nodes[at];
        node.kind = if node.kind == 8 { 8 } else { 2 };
        node.b = b;
    }
}

/// Question 12: a constant, a parameter, a decl or a result of another type.
fn types(file: &mut File, rng: &mut Rng) {
    let leaves = where_nodes(file, |node| matches!(node.kind, 0 | 1 | 15));
    let decls = where_nodes(file, |node| node.kind == 9);
    let function = rng.below(file.functions.len());
    match rng.below(4) {
        0 if function > 0 => {
            file.functions[function].result = (file.functions[function].result + 1) % 3
        }
        1 if file.functions[function].params > 0 => {
            let f = &mut file.functions[function];
            f.mask ^= 1 << rng.below(f.params.min(8).into());
        }
        2 if !decls.is_empty() => {
            let at = decls[rng.below(decls.len())];
            file.nodes[at].a = if file.nodes[at].a == 1 { 2 } else { 1 };
        }
        _ => {
            if let Some(&at) = rng.pick(&leaves) {
                let kind = if file.nodes[at].kind == 0 { [1, 15][rng.below(2)] } else { 0 };
                file.nodes[at] = NodeRecord::new(kind, 0, 0, 1);
            }
        }
    }
}

/// Question 14: a return turned into an expression as statement.
fn returns(file: &mut File, rng: &mut Rng) {
    let returns = where_nodes(file, |node| node.kind == 12);
    if let Some(&at) = rng.pick(&returns) {
        file.nodes[at].kind = 14;
    }
}
