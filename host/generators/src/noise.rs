//! Changes that aim at nothing.

use crate::record::File;
use crate::rng::Rng;

/// Sets one to eight bytes at random.
pub fn bytes(mut file: Vec<u8>, rng: &mut Rng) -> Vec<u8> {
    for _ in 0..rng.between(1, 8) {
        let at = rng.below(file.len());
        if let Some(byte) = file.get_mut(at) {
            *byte = rng.draw() as u8;
        }
    }
    file
}

/// Sets one to three fields to values near the edges of their ranges.
pub fn fields(file: &File, rng: &mut Rng) -> Vec<u8> {
    let mut file = file.clone();
    for _ in 0..rng.between(1, 3) {
        let value = rng.edge_word();
        let node = rng.below(file.nodes.len());
        let function = rng.below(file.functions.len());
        let small = rng.below(20);
        match rng.below(10) {
            0 => file.functions[function].result = rng.below(4) as u8,
            1 => file.functions[function].params = rng.below(10) as u8,
            2 => file.functions[function].vars = rng.below(66) as u8,
            3 => file.functions[function].mask = value as u8,
            4 => file.functions[function].count = value,
            5 => file.nodes[node].kind = small as u8,
            6 => file.nodes[node].a = small as u8,
            7 => file.nodes[node].b = small as u32,
            8 => file.nodes[node].b = value,
            _ => file.nodes[node].size = value,
        }
    }
    file.bytes()
}

/// Swaps, doubles or removes a node record, with the counts left or set right.
pub fn nodes(file: &File, rng: &mut Rng) -> Vec<u8> {
    let mut file = file.clone();
    let at = rng.below(file.nodes.len());
    let other = rng.below(file.nodes.len());
    let owner = file.owner(at);
    match rng.below(3) {
        0 => file.nodes.swap(at, other),
        1 => {
            file.nodes.insert(at, file.nodes[other].clone());
            file.functions[owner].count += 1;
        }
        _ => {
            file.nodes.remove(at);
            file.functions[owner].count -= 1;
        }
    }
    if !rng.one_in(8) {
        file.header.nodes = file.nodes.len() as u32;
    }
    if rng.one_in(2) {
        set_sizes_right(&mut file);
    }
    file.bytes()
}

/// Gives each node the size that its children's sizes make, where it has children enough.
fn set_sizes_right(file: &mut File) {
    let mut roots: Vec<u32> = Vec::new();
    for node in &mut file.nodes {
        let arity = match node.kind {
            3 | 4 | 7 | 11 => 2,
            8 | 9 | 12..=14 => 1,
            10 => 3,
            5 => usize::from(node.a),
            _ => 0,
        };
        let first = roots.len().saturating_sub(arity);
        node.size = 1 + roots.drain(first..).sum::<u32>();
        roots.push(node.size);
    }
}

/// Cuts the file or adds bytes to it.
pub fn length(mut file: Vec<u8>, rng: &mut Rng) -> Vec<u8> {
    let unit = if rng.one_in(2) { 12 } else { 1 };
    if rng.one_in(2) {
        file.truncate(file.len().saturating_sub(unit * rng.between(1, 40)));
    } else {
        let more = unit * rng.between(1, 40);
        file.extend((0..more).map(|_| rng.draw() as u8));
    }
    file
}

/// A file of random bytes, with or without a right header.
pub fn nonsense(rng: &mut Rng) -> Vec<u8> {
    let (functions, nodes) = (rng.between(1, 4), rng.between(1, 40));
    let mut file: Vec<u8> = (0..12 * (1 + functions + nodes)).map(|_| rng.draw() as u8).collect();
    if rng.one_in(2) {
        let edition = rng.beside().below(2) as u8;
        let header = [b'P', b'R', functions as u8, 0, nodes as u8, 0, 0, 0, edition, 0, 0, 0];
        file[..12].copy_from_slice(&header);
    }
    file
}
