//! Trees nested as deep as they can be.

use crate::case::Group;
use generators::record::NodeRecord;
use generators::shapes;
use generators::tree::*;
use generators::File;

/// Every regular shape at the greatest size, and some others.
pub fn accepted() -> Group {
    let mut g = Group::new("deep trees accepted");
    for (name, shape) in shapes::ALL {
        for nodes in [128, 1024, 4096] {
            g.accepted(format!("{name}, {nodes} nodes"), shape(nodes));
        }
    }
    let ands = (0..2045).fold(boolean(true), |e, _| and(e, boolean(false)));
    g.accepted("2,045 && nested left", main(0, seq(assert_that(ands), ret(int(0)))));
    let both = (0..10).fold(ret(int(0)), |s, _| seq(s.clone(), s));
    g.accepted("a balanced seq of 1,024 returns", main(0, both));
    let left = shapes::deepest(ret(int(0)), |s| seq(s, nop()));
    g.accepted("64 decls over 2,015 seqs left", left);
    let right = shapes::deepest(ret(int(0)), |s| seq(nop(), s));
    g.accepted("64 decls over 2,015 seqs right", right);
    g
}

/// The last node's number and place in a file of one function.
fn last_place(file: &File) -> u32 {
    1 + file.nodes.len() as u32
}

/// Deep trees with a defect at the bottom or at the top.
pub fn refused() -> Group {
    let mut g = Group::new("deep trees refused");
    let calls = || shapes::calls(4096);
    g.refused(
        "4,090 calls over true",
        calls().with(|f| f.nodes[0] = NodeRecord::new(1, 0, 0, 1)),
        12,
        4,
    );
    g.refused(
        "4,090 calls over nop",
        calls().with(|f| f.nodes[0] = NodeRecord::new(6, 0, 0, 1)),
        9,
        3,
    );
    g.refused("4,090 calls, the last size", calls().with(|f| f.nodes[4091].size = 4091), 8, 4094);
    for (name, shape) in
        [("right", shapes::seq_right as fn(usize) -> File), ("left", shapes::seq_left)]
    {
        let file = shape(4096);
        let top = last_place(&file);
        let spoilt = file.clone().with(|f| f.nodes[4095].size = 4095);
        g.refused(format!("2,047 seqs {name}, the last size"), spoilt, 8, top);
        let node = file.nodes.iter().position(|n| n.kind == 12).unwrap_or(0);
        let spoilt = file.with(|f| f.nodes[node].kind = 14);
        g.refused(format!("2,047 seqs {name} without a return"), spoilt, 14, 1);
    }
    let ifs = shapes::ifs(4096).with(|f| f.nodes[0] = NodeRecord::new(0, 0, 1, 1));
    let top = last_place(&ifs);
    g.refused("1,023 ifs, the outermost condition", ifs, 12, top);
    let whiles = shapes::whiles(4096).with(|f| f.nodes[0] = NodeRecord::new(0, 0, 1, 1));
    let place = last_place(&whiles) - 3;
    g.refused("2,046 whiles, the outermost condition", whiles, 12, place);
    empty_reads(&mut g);
    deepest(&mut g);
    g
}

/// The deepest statements of all: the innermost is a read without a value, or no return, or a return in a loop.
fn deepest(g: &mut Group) {
    let left = |inner| shapes::deepest(inner, |s| seq(s, nop()));
    let right = |inner| shapes::deepest(inner, |s| seq(nop(), s));
    let whiles = |inner| shapes::deepest(inner, |s| while_do(boolean(true), s));
    g.refused("64 decls over 2,015 seqs left over a read", left(ret(var(0))), 13, 2);
    g.refused("64 decls over 2,015 seqs right over a read", right(ret(var(0))), 13, 2017);
    g.refused("64 decls over 2,015 whiles over a read", whiles(ret(var(63))), 13, 2017);
    g.refused("64 decls over 2,015 seqs left without a return", left(discard(int(0))), 14, 1);
    g.refused("64 decls over 2,015 seqs right without a return", right(discard(int(0))), 14, 1);
    g.refused("64 decls over 2,015 whiles", whiles(ret(int(0))), 14, 1);
}

/// Deep trees that read a variable without a value.
fn empty_reads(g: &mut Group) {
    let last = |file: &File| file.nodes.iter().rposition(|n| n.kind == 2).unwrap_or(0);
    let seqs = |s: Stmt| main(1, decl(0, INT, (0..2045).fold(s, |s, _| seq(nop(), s))));
    let file = seqs(ret(var(0)));
    let place = 2 + last(&file) as u32;
    g.refused("2,045 seqs right over a read", file, 13, place);
    let left = (0..2045).fold(ret(var(0)), |s, _| seq(s, nop()));
    g.refused("2,045 seqs left over a read", main(1, decl(0, INT, left)), 13, 2);
    let whiles = shapes::while_reads(4096).with(|f| f.nodes[0].kind = 0).with(spoil_assign);
    g.refused("2,044 whiles that read", whiles, 13, 4);
    let reads = shapes::deep_reads(4096).with(spoil_assign);
    g.refused("1,363 reads in a seq", reads, 13, 4);
    let decls = (0..64).fold(ret(op(ADD, var(0), var(63))), |s, x| decl(x, INT, s));
    g.refused("64 decls over two reads", main(64, decls), 13, 2);
}

/// Turns the first assign, node 1, into an expression as statement.
fn spoil_assign(file: &mut File) {
    file.nodes[1].kind = 14;
    file.nodes[1].b = 0;
}
