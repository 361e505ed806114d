//! The time of a step of one loop, by the frames and the callers under it.

use super::{fine, held, Sides};
use generators::depth::{deep, TURNS};
use generators::tree::Stmt;

/// The callers and the seqs around the loop of each row.
const DEPTHS: [(usize, usize); 8] =
    [(2, 0), (2, 98), (2, 248), (2, 498), (4, 0), (8, 0), (13, 0), (13, 487)];

/// The steps of a timed run.
const STEPS: u64 = 50_000;

/// The steps after which the loop has long been reached.
const REACHED: u64 = 10_000;

/// Prints a step's time for each loop at each depth, and how far the greatest time is from the least.
pub fn print(sides: &Sides) {
    let name = sides.judged.name;
    println!(
        "\n| the same loop | frames under it | callers | {name} ns/step | plain ns/step | ratio |"
    );
    println!("|---|---:|---:|---:|---:|---:|");
    let mut spreads = Vec::new();
    for (loop_name, turn) in TURNS {
        let from = DEPTHS.map(|(callers, seqs)| reached(sides, callers, seqs, turn()));
        let times = sides.steps(&from, STEPS);
        for ((callers, seqs), times) in DEPTHS.iter().zip(&times) {
            println!("| {loop_name} | {} | {callers} | {}", callers + seqs, fine(*times));
        }
        spreads.push((loop_name, [0, 1].map(|side| spread(times.iter().map(|both| both[side])))));
    }
    println!("\n| greatest time of a step by least, over these depths | {name} | plain |");
    println!("|---|---:|---:|");
    for (loop_name, [judged, plain]) in spreads {
        println!("| {loop_name} | {judged:.2} | {plain:.2} |");
    }
}

/// The loop's file and the memory of a state inside the loop.
fn reached(sides: &Sides, callers: usize, seqs: usize, turn: Stmt) -> (Vec<u8>, Vec<u32>) {
    let file = deep(callers, seqs, turn).bytes();
    let memory = sides.after(&file, REACHED);
    let (frames, saved) = held(&memory);
    let under = callers + seqs;
    assert!((under..under + 8).contains(&frames), "{frames} frames");
    assert!((callers..callers + 2).contains(&saved), "{saved} callers");
    (file, memory)
}

/// The greatest time by the least.
fn spread(times: impl Iterator<Item = f64>) -> f64 {
    let ends = (f64::INFINITY, 0.0_f64);
    let (least, greatest) =
        times.fold(ends, |(least, greatest), time| (least.min(time), greatest.max(time)));
    greatest / least
}
