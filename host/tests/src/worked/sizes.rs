//! Question 8: sizes and parts.

use super::base::{three, two};
use crate::case::Group;
use generators::record::NodeRecord;
use generators::tree::*;
use generators::File;

/// Puts a nop of size 1 before a part's first node and counts it.
fn loose_nop(function: usize) -> File {
    three().with(|f| {
        let first = f.first_node(function);
        f.nodes.insert(first, NodeRecord::new(6, 0, 0, 1));
        f.functions[function].count += 1;
        f.header.nodes += 1;
    })
}

/// Puts a node of a size for the first node of a part.
fn begins_with(function: usize, kind: u8, a: u8, b: u32, size: u32) -> File {
    three().with(|f| {
        let first = f.first_node(function);
        f.nodes[first] = NodeRecord::new(kind, a, b, size);
    })
}

/// Moves the edge between f0 and f1 or f1 and f2.
fn moved(one: usize, by: i32) -> File {
    three().with(|f| {
        f.functions[one].count = f.functions[one].count.wrapping_add_signed(by);
        f.functions[one + 1].count = f.functions[one + 1].count.wrapping_add_signed(-by);
    })
}

/// Question 8 of sizes, children and parts.
pub fn question_8() -> Group {
    let mut g = Group::new("question 8");
    for node in 0..7 {
        let right = three().nodes[node].size;
        for size in [0, right - 1, right + 1, 5, 1 << 16, right + (1 << 16), 1 << 31, u32::MAX] {
            let spoilt = three().with(|f| f.nodes[node].size = size);
            g.refused(format!("size {size} of node {node}"), spoilt, 8, 4 + node as u32);
        }
    }
    parts(&mut g);
    outside(&mut g);
    let both = three().with(|f| {
        f.nodes[6].size = 3;
        f.nodes[0] = NodeRecord::new(6, 0, 0, 1);
    });
    g.refused("and question 9", both, 8, 10);
    let lower = three().with(|f| {
        f.nodes[5].size = 0;
        f.nodes[3].size = 0;
    });
    g.refused("the lower of two", lower, 8, 7);
    g
}

/// Parts whose last size is not the count.
fn parts(g: &mut Group) {
    g.refused("a loose nop in f0", loose_nop(0), 8, 4 + 3);
    g.refused("a loose nop in f1", loose_nop(1), 8, 4 + 5);
    g.refused("a loose nop in f2", loose_nop(2), 8, 4 + 7);
    g.refused("f0 one node less", moved(0, -1), 8, 4 + 2);
    g.refused("f1 one node less", moved(1, -1), 8, 4 + 4);
    g.refused("f0 one node more, a variable it lacks", moved(0, 1), 7, 4 + 3);
    g.refused("f1 one node more", moved(1, 1), 8, 4 + 5);
    let two_leaves = three().with(|f| f.nodes[6] = NodeRecord::new(1, 0, 1, 1));
    g.refused("two leaves in f2", two_leaves, 8, 10);
    let wide = main(0, seq(nop(), ret(int(0)))).with(|f| f.nodes[3] = NodeRecord::new(6, 0, 0, 1));
    g.refused("trees side by side", wide, 8, 5);
}

/// Children that would be outside the part.
fn outside(g: &mut Group) {
    for (function, place) in [(0, 4), (1, 7), (2, 9)] {
        for (kind, a, b) in [(3, 0, 0), (4, 0, 0), (5, 1, 1), (7, 0, 0), (10, 0, 0), (14, 0, 0)] {
            for size in [1, 2, 3, 4] {
                let name = format!("f{function} begins with kind {kind}, size {size}");
                g.refused(name, begins_with(function, kind, a, b, size), 8, place);
            }
        }
    }
    let if_of_two = two(ret(int(0)), function(INT, 0, while_do(boolean(true), ret(int(1)))));
    let short = if_of_two.with(|f| f.nodes[5].kind = 10);
    for size in [4, 5, 6] {
        let spoilt = short.clone().with(|f| f.nodes[5].size = size);
        g.refused(format!("an if of two children in f1, size {size}"), spoilt, 8, 8);
    }
}
