//! The price of a resume: a run of few steps checks the file and the memory first.

use super::{cells, nodes, Sides};
use crate::{cases, grouped};
use bench::timing::median;
use generators::depth::long_loop;
use generators::{endless, shapes, File};

/// The allowances of a call.
const ALLOWANCES: [u64; 5] = [0, 1, 10, 100, 1_000];

/// Prints the time of a run by its allowance, of a run of no steps by the file and the state, and of both in small files.
pub fn print(sides: &Sides) {
    by_allowance(sides);
    by_state(sides);
    small(sides);
}

/// A medium and a large file with each allowance.
fn by_allowance(sides: &Sides) {
    let name = sides.judged.name;
    println!("\n| file | allowance | {name} ns/run | plain ns/run | ratio | {name} ns/step |");
    println!("|---|---:|---:|---:|---:|---:|");
    for (label, file) in [("medium loop", long_loop(512)), ("large loop", long_loop(4096))] {
        let bytes = file.bytes();
        let memory = sides.after(&bytes, 1_000);
        let times = sides.runs(&bytes, &memory, &ALLOWANCES);
        for (allowance, times) in ALLOWANCES.into_iter().zip(times) {
            let each = match allowance {
                0 => "—".to_string(),
                steps => grouped(times[0] / steps as f64),
            };
            println!(
                "| {label}, {} nodes | {} | {} {each} |",
                nodes(&file),
                grouped(allowance as f64),
                cells(times)
            );
        }
    }
}

/// Runs of no steps.
fn by_state(sides: &Sides) {
    let name = sides.judged.name;
    println!("\n| resume, no steps | {name} ns | plain ns | ratio |");
    println!("|---|---:|---:|---:|");
    let row = |label: String, file: &File, steps: u64| {
        let bytes = file.bytes();
        let times = sides.runs(&bytes, &sides.after(&bytes, steps), &[0]);
        println!("| {label} | {}", cells(times[0]));
    };
    row("typical procedure, after 40 steps".to_string(), &cases::typical(), 40);
    for size in [128, 1024, 4096] {
        let nodes = grouped(size as f64);
        row(format!("{nodes} nodes, main()"), &shapes::calls(size), 0);
        row(format!("{nodes} nodes, after 40 steps"), &shapes::calls(size), 40);
    }
    row("4,096 nodes, 512 frames".to_string(), &shapes::calls(4096), 513);
}

/// Runs of no steps and of 100 steps in the small files that run without end.
fn small(sides: &Sides) {
    let name = sides.judged.name;
    println!("\n| small file | nodes | {name} ns, no steps | plain ns | ratio, no steps | {name} ns, 100 steps | plain ns | ratio, 100 steps |");
    println!("|---|---:|---:|---:|---:|---:|---:|---:|");
    let mut ratios = [Vec::new(), Vec::new()];
    for (program, make) in endless::ALL {
        let file = make();
        let bytes = file.bytes();
        let times = sides.runs(&bytes, &sides.after(&bytes, 1_000), &[0, 100]);
        println!("| {program} | {} | {} {}", nodes(&file), cells(times[0]), cells(times[1]));
        ratios.iter_mut().zip(&times).for_each(|(all, t)| all.push(t[0] / t[1]));
    }
    let [none, hundred] = ratios.map(median);
    println!("| median | | | | {none:.2} | | | {hundred:.2} |");
}
