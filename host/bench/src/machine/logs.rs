//! The price of a log: bytes and time of a logged step, the time of a step back, and that of a run that the log stops at once.

use super::{cells, fine, nodes, Sides};
use crate::{cases, grouped};
use bench::timing::{medians_of_all, Call};
use generators::depth::long_loop;
use generators::{endless, File};
use reference::machine::Outcome;
use std::hint::black_box;
use tests::machine::Entries;

/// The programs whose steps are logged.
const PROGRAMS: [&str; 6] = [
    "counting",
    "arithmetic",
    "calls without arguments",
    "calls of two arguments",
    "calls of eight arguments",
    "recursion",
];

/// The steps of a timed run.
const STEPS: u64 = 1_000;

/// The steps before it, after which a program has long been in its loop.
const REACHED: u64 = 1_000;

/// The bytes of a log, which has room for more than these steps.
const ROOM: usize = 1 << 20;

/// A program's name, its file and the memory of a state in its loop.
struct Reached {
    name: &'static str,
    file: Vec<u8>,
    memory: Vec<u32>,
}

/// Prints all tables.
pub fn print(sides: &Sides) {
    let all = endless::ALL.into_iter().filter(|(name, _)| PROGRAMS.contains(name));
    let reached: Vec<Reached> = all
        .map(|(name, make)| {
            let file = make().bytes();
            let memory = sides.after(&file, REACHED);
            Reached { name, file, memory }
        })
        .collect();
    steps(sides, &reached);
    steps_back(sides, &reached);
    stopped(sides);
}

/// The log of so many steps from a memory, which is left after them; the same on both sides.
fn logged(sides: &Sides, file: &[u8], memory: &mut [u32], steps: u64) -> Vec<u8> {
    let from = memory.to_vec();
    let [first, second] = [sides.judged, sides.plain].map(|side| {
        let mut log = vec![0; ROOM];
        memory.copy_from_slice(&from);
        let answer = (side.run_logged)(file, memory, steps, &mut log, 0);
        let (outcome, taken, used) = answer.expect("an accepted run");
        assert_eq!((outcome, taken), (Outcome::Spent, steps));
        log.truncate(used as usize);
        log
    });
    assert!(first == second, "the logs differ");
    first
}

/// One logged run of one side, which goes on in its memory and writes its log from the beginning.
fn go_on(side: &Entries, file: &[u8], memory: &mut [u32], allowance: u64, log: &mut [u8]) {
    assert!(black_box((side.run_logged)(black_box(file), memory, allowance, log, 0)).is_ok());
}

/// Prints bytes and time of a logged step: a run of many less a run of none.
fn steps(sides: &Sides, reached: &[Reached]) {
    let name = sides.judged.name;
    println!("\n| logged program | bytes/step | steps in 1 MiB | {name} ns/logged step | plain ns/logged step | ratio |");
    println!("|---|---:|---:|---:|---:|---:|");
    let calls = reached.iter().flat_map(|Reached { file, memory, .. }| {
        [0, STEPS].into_iter().flat_map(|n| [sides.judged, sides.plain].map(|s| (s, n))).map(
            move |(side, allowance)| {
                let (mut memory, mut log) = (memory.clone(), vec![0; ROOM]);
                Box::new(move || go_on(&side, file, &mut memory, allowance, &mut log)) as Call
            },
        )
    });
    let times = medians_of_all(calls);
    for (Reached { name, file, memory }, t) in reached.iter().zip(times.chunks_exact(4)) {
        let bytes = logged(sides, file, &mut memory.clone(), STEPS).len() as f64 / STEPS as f64;
        let each = [0, 1].map(|i| (t[2 + i] - t[i]).max(0.0) / STEPS as f64);
        let fit = grouped((ROOM as f64 / bytes).floor());
        println!("| {name} | {bytes:.1} | {fit} | {}", fine(each));
    }
}

/// Prints the time of a step back, which checks the file, the memory and the state that it goes to.
fn steps_back(sides: &Sides, reached: &[Reached]) {
    let name = sides.judged.name;
    println!("\n| a step back | {name} ns | plain ns | ratio |");
    println!("|---|---:|---:|---:|");
    let calls = reached.iter().flat_map(|Reached { file, memory: before, .. }| {
        let mut after = before.clone();
        let log = logged(sides, file, &mut after, 1);
        let places = (0..before.len()).filter(|&place| before[place] != after[place]);
        let changed: Vec<(usize, u32)> = places.map(|place| (place, after[place])).collect();
        [sides.judged, sides.plain].map(|side| {
            let (mut memory, log, changed) = (after.clone(), log.clone(), changed.clone());
            let used = log.len() as u64;
            Box::new(move || {
                let answer = (side.step_back)(black_box(file), &mut memory, &log, used);
                assert_eq!(black_box(answer), Ok(0));
                changed.iter().for_each(|&(place, word)| memory[place] = word);
            }) as Call
        })
    });
    let times = medians_of_all(calls);
    for (Reached { name, .. }, t) in reached.iter().zip(times.chunks_exact(2)) {
        println!("| {name} | {}", cells([t[0], t[1]]));
    }
}

/// Prints the time of a logged run that stops at once: with Spent, as no step is allowed, and with Log full, as the log has no byte.
fn stopped(sides: &Sides) {
    let name = sides.judged.name;
    println!("\n| logged run of no step | nodes | {name} ns, Spent | plain ns | ratio, Spent | {name} ns, Log full | plain ns | ratio, Log full |");
    println!("|---|---:|---:|---:|---:|---:|---:|---:|");
    let files: [(&str, File, u64); 3] = [
        ("counting", endless::counting(), REACHED),
        ("typical procedure, after 40 steps", cases::typical(), 40),
        ("large loop", long_loop(4096), REACHED),
    ];
    for (label, file, steps) in files {
        let bytes = file.bytes();
        let memory = sides.after(&bytes, steps);
        let calls = [0, STEPS].into_iter().flat_map(|allowance| {
            [sides.judged, sides.plain].map(|side| {
                let (mut memory, file) = (memory.clone(), &bytes);
                Box::new(move || go_on(&side, file, &mut memory, allowance, &mut [])) as Call
            })
        });
        let t = medians_of_all(calls);
        println!("| {label} | {} | {} {}", nodes(&file), cells([t[0], t[1]]), cells([t[2], t[3]]));
    }
}
