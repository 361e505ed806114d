//! Times the machine's entry points and prints Markdown tables.
//!
//! Without the feature `machine` the reference stands where the proved machine would.

mod depth;
mod logs;
mod memory;
mod resume;
mod steps;

use crate::grouped;
use bench::timing::{ask, checks, go_on, medians_of_all, step_times, Call, Reached};
use generators::File;
use reference::image::{ACTIVATION, ACTIVATIONS, FRAMES, WORDS};
use std::hint::black_box;
use tests::machine::{entries, Entries};

/// The two sides: the proved entry points where they are linked, and the fast ones.
struct Sides {
    judged: Entries,
    plain: Entries,
}

impl Sides {
    /// The sides that are linked.
    fn new() -> Sides {
        let all = entries();
        Sides { judged: *all.get(2).unwrap_or(&all[0]), plain: all[1] }
    }

    /// The memory after so many steps of a program, which is the same on both sides.
    fn after(&self, file: &[u8], steps: u64) -> Vec<u32> {
        let [first, second] = [self.judged, self.plain].map(|side| {
            let mut memory = vec![0; WORDS];
            assert_eq!((side.start)(file, &mut memory), None);
            assert!((side.run)(file, &mut memory, steps).is_ok());
            memory
        });
        assert_eq!(first, second);
        first
    }

    /// The memory of the first state of a program with so many frames.
    fn at_frames(&self, file: &[u8], frames: usize) -> Vec<u32> {
        let mut memory = self.after(file, 0);
        for _ in 0..20_000 {
            if held(&memory).0 == frames {
                return memory;
            }
            assert!((self.plain.run)(file, &mut memory, 1).is_ok());
        }
        panic!("no state has {frames} frames");
    }

    /// The nanoseconds of a run with each allowance on both sides, all timed in turn, each going on in its own copy of a memory.
    fn runs(&self, file: &[u8], memory: &[u32], allowances: &[u64]) -> Vec<[f64; 2]> {
        let calls = allowances.iter().flat_map(|&allowance| {
            [self.judged, self.plain].map(|side| {
                let mut memory = memory.to_vec();
                Box::new(move || go_on(&side, file, &mut memory, allowance)) as Call
            })
        });
        medians_of_all(calls).chunks_exact(2).map(|times| [times[0], times[1]]).collect()
    }

    /// The nanoseconds of a step from each memory on both sides, all timed in turn.
    fn steps(&self, from: &[Reached], steps: u64) -> Vec<[f64; 2]> {
        let times = step_times(&[self.judged, self.plain], from, steps);
        times.into_iter().map(|each| [each[0], each[1]]).collect()
    }

    /// The nanoseconds of a check of each file and of a memory check of each memory, on both sides, all timed in turn.
    fn checks(&self, from: &[(File, Vec<u32>)]) -> Vec<[[f64; 2]; 2]> {
        let files: Vec<Vec<u8>> = from.iter().map(|(file, _)| file.bytes()).collect();
        let [judged, plain] = checks();
        let calls = files.iter().zip(from).flat_map(|(file, (_, memory))| {
            let memory_check = |side: Entries| {
                Box::new(move || {
                    let answer = (side.memory_check)(black_box(file), black_box(memory));
                    assert_eq!(black_box(answer), None);
                })
            };
            [
                Box::new(|| ask(judged, file)) as Call,
                Box::new(|| ask(plain, file)),
                memory_check(self.judged),
                memory_check(self.plain),
            ]
        });
        let times = medians_of_all(calls);
        times.chunks_exact(4).map(|t| [[t[0], t[1]], [t[2], t[3]]]).collect()
    }
}

/// The waiting frames and the saved callers of a running state's image, main's empty caller included.
fn held(memory: &[u32]) -> (usize, usize) {
    let callers = memory[2] as usize;
    let counts = memory[ACTIVATIONS..FRAMES].chunks_exact(ACTIVATION).map(|a| a[1] as usize);
    (counts.take(callers).sum(), callers)
}

/// Two times of a step with their ratio, as the last cells of a row.
fn fine([judged, plain]: [f64; 2]) -> String {
    format!("{judged:.2} | {plain:.2} | {:.2} |", judged / plain)
}

/// Two times of a call with their ratio, as the last cells of a row.
fn cells([judged, plain]: [f64; 2]) -> String {
    format!("{} | {} | {:.2} |", grouped(judged), grouped(plain), judged / plain)
}

/// The number of a file's nodes.
fn nodes(file: &File) -> String {
    grouped(file.nodes.len() as f64)
}

/// Prints all tables.
pub fn run() {
    let sides = Sides::new();
    steps::print(&sides);
    depth::print(&sides);
    resume::print(&sides);
    memory::print(&sides);
    logs::print(&sides);
}
