//! The check on a small, a typical, the largest and the deepest files.

use crate::grouped;
use bench::timing::{checks, medians};
use generators::rng::Rng;
use generators::tree::{int, main, ret};
use generators::{lively, shapes, File};

/// The first random program of four functions or more and close to 200 nodes, the same one for every release.
pub fn typical() -> File {
    let fits = |file: &File| file.nodes.len().abs_diff(200) <= 10 && file.functions.len() >= 4;
    let drawn = (0..10_000).map(|seed| lively::draw_plain(&mut Rng::new(seed)));
    drawn.into_iter().find(fits).unwrap_or_else(|| shapes::functions(200))
}

/// Prints a row for each file.
pub fn print(name: &str) {
    println!("| check | functions | nodes | {name} ns/file | plain ns/file | ratio |");
    println!("|---|---:|---:|---:|---:|---:|");
    let small = || main(0, ret(int(0)));
    let files = [
        ("small: return 0", small()),
        ("small: return 0, edition 1", small().with(|f| f.header.edition = 1)),
        ("typical", typical()),
        ("largest: 50,700 bytes", shapes::functions(4096)),
        ("largest in one function", shapes::decls(4096)),
        ("largest of early returns in guards", shapes::guards(4096)),
        ("deepest statement: 2,047 seqs", shapes::seq_left(4096)),
        ("deepest expression: 4,090 calls", shapes::calls(4096)),
    ];
    for (label, file) in files {
        let bytes = file.bytes();
        let [judged, plain] = medians(&bytes, checks());
        let (functions, nodes) = (file.functions.len(), file.nodes.len());
        let ratio = judged / plain;
        println!(
            "| {label} | {functions} | {} | {} | {} | {ratio:.2} |",
            grouped(nodes as f64),
            grouped(judged),
            grouped(plain)
        );
    }
    println!();
}
