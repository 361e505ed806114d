//! The files and memories that the entry points are called with: the smallest, the deepest, and those that each question refuses.

use super::trial::{Entry, Trial};
use super::SMALL;
use crate::machine::entries;
use crate::{used, TAIL};
use generators::depth::{deep, long_loop, nested_whiles, waiting, TURNS};
use generators::tree::{int, main, nop, ret, seq};
use generators::{endless, late, nested, shapes, File};
use reference::image::{ACTIVATION, ACTIVATIONS, FRAMES, WORDS};
use reference::log::LONGEST;

/// The nodes of the files: as many as 3,072 bytes have, as a small file has, as 12,288 bytes have, and as there can be.
pub const SIZES: [usize; 4] = [250, SMALL, 1000, 4096];

/// A row's name, the size that its files were made for, and the nodes of a file.
#[derive(Clone, Copy)]
pub struct Label<'a> {
    pub name: &'a str,
    pub size: usize,
    pub nodes: usize,
}

/// Takes a call for a row.
pub type Visit<'a> = dyn FnMut(&Label, Trial) + 'a;

/// The steps after which states are taken: none, those to the most frames of nested calls, and those to the bottom of a deep program.
const REACHED: [u64; 3] = [0, 513, 10_000];

/// The allowance of a long run, and that of a logged run with the bytes of its log.
const LONG: u64 = 5_000;
const LOGGED: u64 = 20;
const ROOM: usize = 2_000;

/// The calls that want an image in the memory.
const ON_MEMORY: [Entry; 5] = [
    Entry::Run(LONG),
    Entry::MemoryCheck,
    Entry::LookUp(0),
    Entry::RunLogged(LOGGED),
    Entry::StepBack,
];

/// Accepted files with their names: the smallest, every shape, and programs that go down to many frames and callers.
fn accepted() -> Vec<(String, usize, File)> {
    let mut all = Vec::new();
    for size in SIZES {
        let named = |(name, make): &shapes::Shape| (name.to_string(), size, make(size));
        all.extend(shapes::ALL.iter().map(named));
    }
    let mut own = |name: &str, file: File| all.push((name.to_string(), file.nodes.len(), file));
    own("return 0", main(0, ret(int(0))));
    for seqs in [0, 110, 490] {
        for (name, turn) in TURNS {
            let callers = if name.contains("call") { 13 } else { 14 };
            own(&format!("{name} under 14 callers and {seqs} seqs"), deep(callers, seqs, turn()));
        }
    }
    own("64 decls over 2,015 seqs left", shapes::deepest(ret(int(0)), |s| seq(s, nop())));
    own("long loop", long_loop(4096));
    for nodes in [250, 256, 3552] {
        own("assigns that wait", waiting(nodes));
    }
    for (whiles, rest) in [(100, 40), (500, 3088)] {
        own("whiles that wait in each other", nested_whiles(whiles, rest));
    }
    endless::ALL.iter().for_each(|(name, make)| own(&format!("endless: {name}"), make()));
    all
}

/// The memory of a file's state after so many steps at most, as plain Rust has it.
fn after(file: &[u8], steps: u64) -> Vec<u32> {
    let (plain, mut memory) = (entries()[1], used(WORDS + TAIL));
    assert_eq!((plain.start)(file, &mut memory), None);
    assert!((plain.run)(file, &mut memory, steps).is_ok());
    memory
}

/// The saved callers and the frames of an image; a state that is not running has none.
fn held(memory: &[u32]) -> [usize; 2] {
    let callers = memory[2] as usize;
    let counts = memory[ACTIVATIONS..FRAMES].chunks_exact(ACTIVATION).map(|a| a[1] as usize);
    [callers, counts.take(callers).sum()]
}

/// Memories that are refused: one of no image, and a good one with its first word, its last word that is no zero or its last word changed.
fn unfit(state: &[u32]) -> Vec<Vec<u32>> {
    let last = state[..WORDS].iter().rposition(|&word| word != 0).unwrap_or(0);
    let changed = [0, last, WORDS - 1].map(|at| {
        let mut memory = state.to_vec();
        memory[at] ^= 1 << 30;
        memory
    });
    [vec![used(WORDS)], changed.to_vec()].concat()
}

/// A memory one logged step further, or as it is where no step is taken, with the log of that step.
fn logged(file: &[u8], memory: &[u32]) -> (Vec<u32>, Vec<u8>) {
    let (plain, mut memory, mut log) = (entries()[1], memory.to_vec(), vec![0; LONGEST]);
    let answer = (plain.run_logged)(file, &mut memory, 1, &mut log, 0);
    log.truncate(answer.map_or(0, |(_, _, used)| used as usize));
    (memory, log)
}

/// The calls with an accepted file, which are accepted or refused for the memory, the variable or the log; gives the most callers and frames.
fn of_accepted(name: &str, size: usize, file: &File, visit: &mut Visit) -> [usize; 2] {
    let (nodes, bytes, other) = (file.nodes.len(), file.bytes(), used(WORDS));
    let class = if nodes <= SMALL { SMALL } else { SIZES[3] };
    let room = vec![0; ROOM];
    let mut with = |name: &str, size: usize, entry: Entry, memory: &[u32], log: &[u8]| {
        visit(&Label { name, size, nodes }, Trial { entry, file: &bytes, memory, log });
    };
    let states = REACHED.map(|steps| after(&bytes, steps));
    for state in &states {
        let (memory, log) = logged(&bytes, state);
        with(name, size, Entry::StepBack, &memory, &log);
        with("any shape, no record", class, Entry::StepBack, state, b"BK");
    }
    let mut one = |name: &str, size: usize, entry: Entry, memory: &[u32]| {
        with(name, size, entry, memory, &room);
    };
    one(name, size, Entry::Check, &other);
    one(name, size, Entry::Start, &other);
    for entry in [Entry::Start].into_iter().chain(ON_MEMORY) {
        one("any shape, a memory that is short", class, entry, &other[..WORDS - 1]);
    }
    for state in &states {
        for entry in [Entry::Run(0)].into_iter().chain(ON_MEMORY) {
            one(name, size, entry, state);
        }
        one("any shape, no such variable", class, Entry::LookUp(64), state);
    }
    for memory in unfit(&states[2]) {
        for entry in ON_MEMORY {
            one("any shape, a memory that is unfit", class, entry, &memory);
        }
    }
    [0, 1].map(|at| states.iter().map(|state| held(state)[at]).max().unwrap_or(0))
}

/// The calls with a refused file on a memory that is good for another one.
fn of_refused(label: &Label, file: &[u8], memory: &[u32], visit: &mut Visit) {
    let entries = [Entry::Check, Entry::Start].into_iter().chain(ON_MEMORY);
    entries.for_each(|entry| visit(label, Trial { entry, file, memory, log: &[] }));
}

/// Hands on every call and gives the most callers and frames of a state.
pub fn all(visit: &mut Visit) -> [usize; 2] {
    let mut most = [0; 2];
    for (name, size, file) in accepted() {
        let held = of_accepted(&name, size, &file, visit);
        most = [0, 1].map(|at| most[at].max(held[at]));
    }
    let memory = after(&main(0, ret(int(0))).bytes(), 0);
    for size in SIZES {
        for (name, make) in late::ALL {
            of_refused(&Label { name, size, nodes: size }, &make(size), &memory, visit);
        }
        for (name, question, file) in nested::refused(size) {
            let (bytes, nodes) = (file.bytes(), file.nodes.len());
            assert_eq!(reference::check(&bytes).map(|refusal| refusal.0), Some(question), "{name}");
            of_refused(&Label { name: &name, size, nodes }, &bytes, &memory, visit);
        }
    }
    most
}
