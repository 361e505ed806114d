//! Lengths and the limits of the counts.

use super::base::two;
use crate::case::Group;
use generators::record::NodeRecord;
use generators::shapes;
use generators::tree::*;
use generators::File;

/// Lengths of zero bytes and of cut and extended files.
pub fn lengths() -> Group {
    let mut g = Group::new("lengths");
    for length in [0, 1, 11, 12, 23, 24, 25, 35, 37, 47, 50_701] {
        g.bytes(format!("{length} zero bytes"), vec![0; length], Some((1, 0, 0)));
    }
    for length in [36, 48, 50_700, 50_712, 120_000] {
        g.bytes(format!("{length} zero bytes"), vec![0; length], Some((2, 0, 0)));
    }
    let good = main(0, ret(int(0))).bytes();
    g.bytes("48 bytes, return 0", good.clone(), None);
    g.bytes("the first 47 of them", good[..47].to_vec(), Some((1, 0, 0)));
    g.bytes("the first 36 of them", good[..36].to_vec(), Some((3, 0, 0)));
    g.bytes("the first 24 of them", good[..24].to_vec(), Some((1, 0, 0)));
    g.bytes("12 zero bytes more", [&good[..], &[0; 12]].concat(), Some((3, 0, 0)));
    g.bytes("one byte more", [&good[..], &[0]].concat(), Some((1, 0, 0)));
    g.refused("36 bytes, nop", main(0, nop()), 14, 1);
    g.refused("36 bytes, 0", main(0, expr_as_stmt(int(0))), 9, 2);
    let longest = shapes::functions(4096);
    g.accepted("the longest good file, 50,700 bytes", longest.clone());
    let bytes = longest.bytes();
    g.bytes("50,701 bytes", [&bytes[..], &[0]].concat(), Some((1, 0, 0)));
    g.bytes("50,712 bytes", [&bytes[..], &bytes[50_688..]].concat(), Some((3, 0, 0)));
    g
}

/// main `return 0` and a function of so many parameters and variables whose others are declared.
fn with_variables(params: u8, vars: u8) -> File {
    let body = (params..vars).fold(ret(int(0)), |s, x| decl(x.into(), INT, s));
    two(ret(int(0)), taking(INT, params, 0, vars, body))
}

/// main with so many nodes, nested to the right or, for an odd number, under one decl.
fn with_nodes(nodes: usize) -> File {
    let body = (0..(nodes - 2) / 2).fold(ret(int(0)), |s, _| seq(nop(), s));
    if nodes.is_multiple_of(2) {
        main(0, body)
    } else {
        main(1, decl(0, INT, body))
    }
}

/// So many functions `return 0`.
fn with_functions(count: usize) -> File {
    file(&(0..count).map(|_| function(INT, 0, ret(int(0)))).collect::<Vec<Function>>())
}

/// p, v, N and F at their limits and past them.
pub fn limits() -> Group {
    let mut g = Group::new("limits");
    g.accepted("p 8", with_variables(8, 8));
    g.refused("p 9", with_variables(9, 9), 4, 2);
    g.accepted("p 8, v 64", with_variables(8, 64));
    g.accepted("p 0, v 64", with_variables(0, 64));
    g.refused("p 0, v 65", with_variables(0, 65), 4, 2);
    g.refused("p 8, v 65", with_variables(8, 65), 4, 2);
    g.refused("p 8, v 7", with_variables(8, 8).with(|f| f.functions[1].vars = 7), 4, 2);
    for nodes in [2, 3, 4, 4095, 4096] {
        g.accepted(format!("N {nodes}"), with_nodes(nodes));
    }
    for nodes in [4097, 4098, 65_538] {
        g.refused(format!("N {nodes}"), with_nodes(nodes), 2, 0);
    }
    for count in [1, 2, 127, 128] {
        g.accepted(format!("F {count}"), with_functions(count));
    }
    for count in [129, 256, 257] {
        g.refused(format!("F {count}"), with_functions(count), 2, 0);
    }
    g.refused("F 128, N 4,097", shapes::functions(4096).with(add_node), 2, 0);
    let empty = file(&[]).with(|f| f.nodes = vec![NodeRecord::new(6, 0, 0, 1); 2]);
    g.refused("F 0", empty.with(|f| f.header.nodes = 2), 2, 0);
    let no_nodes = with_functions(2).with(|f| f.nodes.clear());
    g.refused("N 0", no_nodes.with(|f| f.header.nodes = 0), 2, 0);
    g
}

/// Puts one node more at the end and counts it.
fn add_node(file: &mut File) {
    file.nodes.push(NodeRecord::new(6, 0, 0, 1));
    file.header.nodes += 1;
    if let Some(last) = file.functions.last_mut() {
        last.count += 1;
    }
}
