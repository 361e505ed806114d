//! Worked files on the file, its records and questions 1 to 9.

use super::base::{before_return, three, two};
use crate::case::Group;
use generators::record::NodeRecord;
use generators::shapes;
use generators::tree::*;
use generators::File;

/// The bytes of `return 0` written out.
const RETURN_0: [u8; 48] = [
    0x50, 0x52, 1, 0, 2, 0, 0, 0, 0, 0, 0, 0, //
    0x46, 0x4E, 1, 0, 0, 0, 0, 0, 2, 0, 0, 0, //
    0x4E, 0x44, 0, 0, 0, 0, 0, 0, 1, 0, 0, 0, //
    0x4E, 0x44, 0x0C, 0, 0, 0, 0, 0, 2, 0, 0, 0,
];

/// main `return 0` and a function of parameters with a mask.
fn masked(params: u8, mask: u8) -> File {
    two(ret(int(0)), taking(INT, params, mask, params, ret(int(0))))
}

/// All these examples.
pub fn group() -> Group {
    let mut g = Group::new("files and records");
    g.bytes("return(0)", RETURN_0.to_vec(), None);
    functions(&mut g);
    fields(&mut g);
    calls(&mut g);
    order(&mut g);
    sizes(&mut g);
    sorts(&mut g);
    g
}

/// Function records.
fn functions(g: &mut Group) {
    g.refused("p 0, mask 2", masked(0, 2), 4, 2);
    g.refused("p 0, mask 1", masked(0, 1), 4, 2);
    g.refused("p 7, mask 128", masked(7, 0x80), 4, 2);
    g.accepted("p 7, mask 127", masked(7, 0x7F));
    g.accepted("p 8, mask 255", masked(8, 0xFF));
    g.accepted("p 8, mask 128", masked(8, 0x80));
    g.refused("p 8, v 7", masked(8, 0).with(|f| f.functions[1].vars = 7), 4, 2);
    let counts = |one: u32, other: u32| {
        masked(0, 0).with(|f| {
            f.functions[0].count = one;
            f.functions[1].count = other;
        })
    };
    g.refused("counts 2^32−1 and 5, N 4", counts(u32::MAX, 5), 5, 0);
    g.refused("counts 4 and 0, N 4", counts(4, 0), 4, 2);
}

/// A and b.
fn fields(g: &mut Group) {
    let zero = || main(0, ret(int(0)));
    g.refused("int with a 1", zero().with(|f| f.nodes[0].a = 1), 7, 2);
    g.refused("return with a 1", zero().with(|f| f.nodes[1].a = 1), 7, 3);
    g.refused("return with b 1", zero().with(|f| f.nodes[1].b = 1), 7, 3);
    g.refused("x0 of main, v 0", two(ret(var(0)), taking(INT, 1, 0, 1, ret(var(0)))), 7, 3);
    g.refused("x1 of f1, v 1", three().with(|f| f.nodes[3].b = 1), 7, 7);
    g.refused("x256 of f1, v 1", three().with(|f| f.nodes[3].b = 256), 7, 7);
    g.refused("decl of x0, v 0", main(0, decl(0, INT, ret(int(0)))), 7, 4);
    let parameter = taking(INT, 1, 0, 1, decl(0, INT, ret(var(0))));
    g.refused("decl of a parameter", two(ret(int(0)), parameter), 7, 7);
}

/// Calls, parameters, long and deep files.
fn calls(g: &mut Group) {
    g.accepted("return(main())", main(0, ret(call(0, vec![]))));
    g.accepted("f1 calls main", two(ret(int(0)), function(INT, 0, ret(call(0, vec![])))));
    g.accepted("main calls f1", three());
    g.refused("f1() with p 1", three().with(|f| f.nodes[1].a = 0), 7, 5);
    g.refused("f1(..) with a 2", three().with(|f| f.nodes[1].a = 2), 7, 5);
    g.refused("f3(1), F 3", three().with(|f| f.nodes[1].b = 3), 7, 5);
    g.refused("f257(1)", three().with(|f| f.nodes[1].b = 257), 7, 5);
    g.refused("main(1)", main(0, ret(call(0, vec![int(1)]))), 7, 3);
    let add = seq(assign(0, op(ADD, var(0), int(1))), ret(var(0)));
    let body = ret(call(1, vec![int(4)]));
    g.accepted("a parameter assigned", two(body, taking(INT, 1, 0, 1, add)));
    g.accepted("the longest good file", shapes::functions(4096));
    g.accepted("4,090 calls of f1", shapes::calls(4096));
}

/// The order of the questions.
fn order(g: &mut Group) {
    let both = three().with(|f| {
        f.nodes[0].size = 9;
        f.nodes[3].b = 1;
    });
    g.refused("size of node 0 and b of node 3", both, 7, 7);
    let ill = ret(op(ADD, var(0), boolean(true)));
    let body = decl(0, INT, seq(assign(0, var(0)), ill));
    g.refused("empty read and a type", main(1, body), 12, 6);
    g.bytes("24 bytes", RETURN_0[..24].to_vec(), Some((1, 0, 0)));
    g.bytes("36 zero bytes", vec![0; 36], Some((2, 0, 0)));
    g.bytes("12 bytes more", [&RETURN_0[..], &[0; 12]].concat(), Some((3, 0, 0)));
}

/// Sizes and parts.
fn sizes(g: &mut Group) {
    let loose = main(0, ret(int(0))).with(|f| {
        f.nodes.insert(0, NodeRecord::new(6, 0, 0, 1));
        f.functions[0].count = 3;
        f.header.nodes = 3;
    });
    g.refused("A16a nop, 0, return", loose, 8, 4);
    let across = two(ret(int(0)), function(INT, 0, ret(int(2)))).with(|f| {
        f.nodes.insert(3, NodeRecord::new(3, 0, 0, 4));
        f.nodes[4].size = 5;
        f.functions[1].count = 3;
        f.header.nodes = 5;
    });
    g.refused("A16b + over the part's edge", across, 8, 6);
    for size in [0, 2, u32::MAX] {
        let leaf = main(0, ret(int(0))).with(|f| f.nodes[0].size = size);
        g.refused(format!("A16c a leaf of size {size}"), leaf, 8, 2);
    }
}

/// The place of question 9.
fn sorts(g: &mut Group) {
    let inner = seq(assert_that(stmt_as_expr(nop())), ret(int(0)));
    g.refused("the lower of two", main(0, seq(expr_as_stmt(int(1)), inner)), 9, 2);
    g.refused("body 3", main(0, expr_as_stmt(int(3))), 9, 2);
    g.refused("assert(nop)", before_return(0, assert_that(stmt_as_expr(nop()))), 9, 2);
}
