//! Question 7: the fields of nodes.

use super::base::three;
use crate::case::Group;
use generators::record::NodeRecord;
use generators::tree::*;
use generators::File;

/// The wrong values of a and b for each kind in a function with p 1 and v 3, of three functions
/// of 0, 1 and 0 parameters.
const WRONG: [(u8, u8, u32); 58] = [
    (0, 1, 0),
    (0, 255, 7),
    (1, 1, 0),
    (1, 0, 2),
    (1, 0, 256),
    (1, 0, u32::MAX),
    (2, 1, 0),
    (2, 0, 3),
    (2, 0, 256),
    (2, 0, 1 << 31),
    (3, 16, 0),
    (3, 255, 0),
    (3, 0, 1),
    (3, 0, 1 << 24),
    (4, 1, 0),
    (4, 0, 1),
    (5, 1, 0),
    (5, 0, 1),
    (5, 2, 1),
    (5, 1, 2),
    (5, 0, 3),
    (5, 1, 257),
    (5, 0, u32::MAX),
    (6, 1, 0),
    (6, 0, 1),
    (7, 1, 0),
    (7, 0, 1),
    (8, 1, 0),
    (8, 0, 3),
    (8, 0, 257),
    (8, 0, u32::MAX),
    (9, 0, 1),
    (9, 3, 1),
    (9, 255, 1),
    (9, 1, 0),
    (9, 2, 3),
    (9, 1, 257),
    (9, 1, u32::MAX),
    (10, 1, 0),
    (10, 0, 1),
    (11, 1, 0),
    (11, 0, 1),
    (12, 1, 0),
    (12, 0, 1),
    (13, 1, 0),
    (13, 0, 1),
    (14, 1, 0),
    (14, 0, 1),
    (15, 1, 0),
    (15, 0, 1),
    (15, 0, 1 << 16),
    (16, 0, 0),
    (17, 0, 0),
    (18, 1, 0),
    (32, 0, 0),
    (64, 0, 0),
    (128, 0, 0),
    (255, 0, 0),
];

/// The greatest and least right values of a and b for each kind in the same function.
const RIGHT: [(u8, u8, u32); 27] = [
    (0, 0, 0),
    (0, 0, u32::MAX),
    (1, 0, 0),
    (1, 0, 1),
    (2, 0, 0),
    (2, 0, 2),
    (3, 0, 0),
    (3, 15, 0),
    (4, 0, 0),
    (5, 0, 0),
    (5, 1, 1),
    (5, 0, 2),
    (6, 0, 0),
    (7, 0, 0),
    (8, 0, 0),
    (8, 0, 2),
    (9, 1, 1),
    (9, 2, 2),
    (9, 1, 2),
    (9, 2, 1),
    (10, 0, 0),
    (11, 0, 0),
    (12, 0, 0),
    (13, 0, 0),
    (14, 0, 0),
    (15, 0, 0),
    (0, 0, 1 << 31),
];

/// The base file with three nops for f1's body and v 3, so that any kind can be put there.
fn three_nops() -> File {
    let spare = taking(INT, 1, 0, 3, seq(nop(), seq(nop(), nop())));
    let body = || ret(int(0));
    file(&[function(INT, 0, body()), spare, function(INT, 0, body())])
}

/// Question 7: wrong fields at the first, middle and last nodes.
pub fn question_7() -> Group {
    let mut g = Group::new("question 7");
    for (kind, a, b) in WRONG {
        for node in [2, 4, 6] {
            let name = format!("kind {kind}, a {a}, b {b} at node {node}");
            let spoilt = three_nops().with(|f| f.nodes[node] = NodeRecord::new(kind, a, b, 1));
            g.refused(name, spoilt, 7, 4 + node as u32);
        }
    }
    // A right node of size 77 passes 7, so it fails 8.
    for (kind, a, b) in RIGHT {
        let odd = three_nops().with(|f| f.nodes[2] = NodeRecord::new(kind, a, b, 77));
        g.refused(format!("kind {kind}, a {a}, b {b} passes"), odd, 8, 6);
    }
    marks(&mut g);
    let both = three().with(|f| (f.nodes[6].b, f.nodes[0].size) = (1, 0));
    g.refused("and question 8", both, 7, 10);
    let lower = three().with(|f| (f.nodes[5].b, f.nodes[2].a) = (2, 1));
    g.refused("the lower of two", lower, 7, 6);
    g
}

/// Wrong marks and kinds at the first, a middle and the last node of the file.
fn marks(g: &mut Group) {
    for node in [0, 3, 6] {
        let place = 4 + node as u32;
        let first = three().with(|f| f.nodes[node].mark[0] = b'D');
        g.refused(format!("mark 0 of node {node}"), first, 7, place);
        let second = three().with(|f| f.nodes[node].mark[1] = b'N');
        g.refused(format!("mark 1 of node {node}"), second, 7, place);
        let kind = three().with(|f| f.nodes[node].kind = 16);
        g.refused(format!("kind 16 at node {node}"), kind, 7, place);
    }
}
