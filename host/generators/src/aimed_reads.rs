//! Defects aimed at question 13.

use crate::aimed::{rename, where_nodes};
use crate::record::{File, NodeRecord};
use crate::rng::Rng;

/// A constant turned into a read, another variable assigned, or a return put into a loop.
pub(crate) fn reads(file: &mut File, rng: &mut Rng) {
    let constants = where_nodes(file, |node| node.kind == 0);
    let under: Vec<(usize, u32)> = scoped(file, &constants);
    if rng.one_in(4) && looped(file, rng) {
        return;
    }
    match rng.pick(&under) {
        Some(&(at, x)) if !rng.one_in(4) => file.nodes[at] = NodeRecord::new(2, 0, x, 1),
        _ => rename(file, rng, &[8]),
    }
}

/// The nodes of a list that stand under decls of ints, with one such variable each.
fn scoped(file: &File, nodes: &[usize]) -> Vec<(usize, u32)> {
    let mut found = Vec::new();
    for decl in where_nodes(file, |node| node.kind == 9 && node.a == 1) {
        let NodeRecord { b, size, .. } = file.nodes[decl];
        let first = nodes.partition_point(|&node| node as u64 + u64::from(size) <= decl as u64);
        let end = nodes.partition_point(|&node| node < decl);
        found.extend(nodes[first..end].iter().take(64).map(|&node| (node, b)));
    }
    found
}

/// Puts a statement with a return, which stands before another one, into a loop; the return then
/// counts for nothing after it.
fn looped(file: &mut File, rng: &mut Rng) -> bool {
    let returning = |at: &usize| {
        let first = (at + 1).saturating_sub(file.nodes[*at].size as usize);
        file.nodes[first..=*at].iter().any(|node| node.kind == 12)
    };
    let firsts: Vec<usize> = where_nodes(file, |node| node.kind == 7)
        .into_iter()
        .filter_map(|seq| seq.checked_sub(1))
        .filter_map(|second| second.checked_sub(file.nodes[second].size as usize))
        .filter(returning)
        .collect();
    let Some(&at) = rng.pick(&firsts) else { return false };
    let owner = file.owner(at);
    if owner == file.functions.len() || file.nodes.len() > 4094 {
        return false;
    }
    put_in_loop(file, at, file.first_node(owner) + file.functions[owner].count as usize);
    file.functions[owner].count += 2;
    file.header.nodes += 2;
    true
}

/// Puts the statement at a node into a while on true; the part ends at a node.
fn put_in_loop(file: &mut File, at: usize, end: usize) {
    let size = file.nodes[at].size;
    let first = (at + 1).saturating_sub(size as usize);
    let end = end.min(file.nodes.len());
    for (i, node) in file.nodes[..end].iter_mut().enumerate().skip(at + 1) {
        if (i + 1).saturating_sub(node.size as usize) <= first {
            node.size = node.size.wrapping_add(2);
        }
    }
    file.nodes.insert(at + 1, NodeRecord::new(11, 0, 0, size.wrapping_add(2)));
    file.nodes.insert(first, NodeRecord::new(1, 0, 1, 1));
}
