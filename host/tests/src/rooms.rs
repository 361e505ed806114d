//! The words of an answer by the room for them: all are written, or none where there is too little, and the call is done all the same.

use crate::machine::entries;
use crate::proved;
use crate::report::Outcome;
use generators::tree::*;
use reference::image::WORDS;

/// A word that no call leaves.
const UNSET: u64 = u64::MAX;

/// The words lent for an answer; the room is less, as many or more.
const LENT: usize = 6;

/// What a call is lent beside its file.
#[derive(Clone, PartialEq, Debug)]
struct Lent {
    memory: Vec<u32>,
    log: Vec<u8>,
    used: u64,
}

/// Makes a call with an answer of some room and gives its number.
type Call = fn(&[u8], &mut Lent, *mut u64, usize) -> u64;

/// A run of two steps.
fn run(file: &[u8], lent: &mut Lent, answer: *mut u64, room: usize) -> u64 {
    let (memory, words) = (lent.memory.as_mut_ptr(), lent.memory.len());
    // Pointers and lengths are those of slices that live through the call, and the answer has more words than the room; so below.
    unsafe { proved::panelrue_run(file.as_ptr(), file.len(), memory, words, 2, answer, room) }
}

/// A look-up of the first variable.
fn look_up(file: &[u8], lent: &mut Lent, answer: *mut u64, room: usize) -> u64 {
    let (memory, words) = (lent.memory.as_ptr(), lent.memory.len());
    unsafe { proved::panelrue_look_up(file.as_ptr(), file.len(), memory, words, 0, answer, room) }
}

/// A logged run of two steps.
fn run_logged(file: &[u8], lent: &mut Lent, answer: *mut u64, room: usize) -> u64 {
    let (memory, words) = (lent.memory.as_mut_ptr(), lent.memory.len());
    let (log, length, used) = (lent.log.as_mut_ptr(), lent.log.len(), lent.used);
    let (file, bytes) = (file.as_ptr(), file.len());
    unsafe {
        proved::panelrue_run_logged(file, bytes, memory, words, 2, log, length, used, answer, room)
    }
}

/// A step back.
fn step_back(file: &[u8], lent: &mut Lent, answer: *mut u64, room: usize) -> u64 {
    let (memory, words) = (lent.memory.as_mut_ptr(), lent.memory.len());
    let (log, length, used) = (lent.log.as_ptr(), lent.log.len(), lent.used);
    let (file, bytes) = (file.as_ptr(), file.len());
    unsafe {
        proved::panelrue_step_back(file, bytes, memory, words, log, length, used, answer, room)
    }
}

/// Each call from a state with a log of two steps before it, with every room.
pub fn outcome() -> Outcome {
    let mut outcome = Outcome::default();
    // Six steps set x0 to 5, the last two with records of 40 and 28 bytes; `return` then waits for its int in 28, and x0 is read in 16.
    let file = main(1, decl(0, INT, seq(assign(0, int(5)), ret(var(0))))).bytes();
    let plain = entries()[1];
    let mut lent = Lent { memory: vec![0; WORDS + 1], log: vec![7; 200], used: 0 };
    assert_eq!((plain.start)(&file, &mut lent.memory), None);
    assert!((plain.run)(&file, &mut lent.memory, 4).is_ok());
    let logged = (plain.run_logged)(&file, &mut lent.memory, 2, &mut lent.log, 0);
    lent.used = logged.map_or(0, |(_, _, used)| used);
    let calls: [(&str, Call, &[u64]); 4] = [
        ("run", run, &[3, 0, 2]),
        ("look-up", look_up, &[1, 5]),
        ("logged run", run_logged, &[3, 0, 2, 112]),
        ("step back", step_back, &[40]),
    ];
    for (name, call, words) in calls {
        let mut whole = lent.clone();
        call(&file, &mut whole, [UNSET; LENT].as_mut_ptr(), LENT);
        for room in 0..=LENT {
            let (mut own, mut told) = (lent.clone(), [UNSET; LENT]);
            let number = call(&file, &mut own, told.as_mut_ptr(), room);
            let mut expected = [UNSET; LENT];
            if room >= words.len() {
                expected[..words.len()].copy_from_slice(words);
            }
            let label = || format!("{name} with room for {room}");
            outcome.same(label, &file, (0, expected), (number, told));
            outcome.same(label, &file, true, own == whole);
        }
    }
    outcome
}
