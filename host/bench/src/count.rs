//! One call many times or one run of many steps, for a count of instructions.

use crate::cases::typical;
use bench::timing::{ask, checks, go_on, judged};
use generators::tree::{int, main, ret};
use generators::{endless, late, shapes, File};
use reference::image::WORDS;
use tests::machine::{entries, Entries};

/// What is done so many times.
#[derive(Clone, Copy)]
enum Unit {
    /// A check of the file.
    Check,
    /// A run with an allowance, from a state after so many steps.
    Run { reached: u64, allowance: u64 },
    /// A step of one run, from a state after so many steps.
    Step { reached: u64 },
}

/// Makes a file, with its nodes where they are what counts.
type Make = Box<dyn Fn() -> (usize, Vec<u8>)>;

/// A case by its name, with how often it is to be done; its file is made when it is wanted.
struct Case {
    name: String,
    times: u64,
    unit: Unit,
    make: Make,
}

/// How often a check is to be done: a short one more often, since two processes differ by some hundred instructions.
const SHORT: u64 = 1_000;
const LONG: u64 = 10;

/// The nodes of the files that are refused.
const SIZES: [usize; 2] = [128, 4096];

/// The steps after which an endless program has long been in its loop.
const REACHED: u64 = 1_000;

/// The checks that are counted.
fn of_checks() -> Vec<Case> {
    let check =
        |name: String, times: u64, make: Make| Case { name, times, unit: Unit::Check, make };
    let small = || (2, main(0, ret(int(0))).bytes());
    let mut all = vec![check("check, return 0".to_string(), SHORT, Box::new(small))];
    for (shape, make) in shapes::ALL {
        let made = move || {
            let file = make(4096);
            (file.nodes.len(), file.bytes())
        };
        all.push(check(format!("check, {shape}"), LONG, Box::new(made)));
    }
    for size in SIZES {
        for (number, (name, make)) in late::ALL.into_iter().enumerate() {
            let made = move || (size, make(size));
            let times = if number < 6 || size == SIZES[0] { SHORT } else { LONG };
            all.push(check(format!("check, {name}, {size} nodes"), times, Box::new(made)));
        }
    }
    all
}

/// The runs and steps that are counted.
fn of_runs() -> Vec<Case> {
    let mut all = Vec::new();
    let mut add = |name: String, unit, make: fn() -> File| {
        let times = if matches!(unit, Unit::Step { .. }) { 10_000 } else { 100 };
        all.push(Case { name, times, unit, make: Box::new(move || (0, make().bytes())) });
    };
    let reached = REACHED;
    for (program, make) in endless::ALL {
        add(format!("resume, {program}"), Unit::Run { reached, allowance: 0 }, make);
        add(format!("100 steps, {program}"), Unit::Run { reached, allowance: 100 }, make);
        add(format!("one step, {program}"), Unit::Step { reached }, make);
    }
    let resume = Unit::Run { reached: 40, allowance: 0 };
    add("resume, typical procedure".to_string(), resume, typical);
    add("resume, 128 nodes".to_string(), resume, || shapes::calls(128));
    all
}

/// All cases.
fn cases() -> Vec<Case> {
    of_checks().into_iter().chain(of_runs()).collect()
}

/// Prints how often each case is to be done, its nodes and its name.
pub fn list() {
    for Case { name, times, make, .. } in cases() {
        println!("{times}\t{}\t{name}", make().0);
    }
}

/// The memory of a file's state after so many steps.
fn after(side: &Entries, file: &[u8], steps: u64) -> Vec<u32> {
    let mut memory = vec![0; WORDS];
    assert_eq!((side.start)(file, &mut memory), None);
    go_on(side, file, &mut memory, steps);
    memory
}

/// Does a case so many times on `proved` or `plain`, or says what is wrong.
pub fn run(side: &str, name: &str, times: &str) -> Result<(), String> {
    let number = match side {
        "proved" if judged().name == "proved" => 0,
        "plain" => 1,
        _ => return Err(format!("{side} is not linked")),
    };
    let times: u64 = times.parse().map_err(|_| format!("{times} is no number"))?;
    let found = cases().into_iter().find(|case| case.name == name);
    let Case { unit, make, .. } = found.ok_or(format!("no case {name}"))?;
    let side = entries().get(2 - number).copied().ok_or("the proved machine is not linked")?;
    let (check, (_, file)) = (checks()[number], make());
    match unit {
        Unit::Check => (0..times).for_each(|_| ask(check, &file)),
        Unit::Run { reached, allowance } => {
            let mut memory = after(&side, &file, reached);
            (0..times).for_each(|_| go_on(&side, &file, &mut memory, allowance));
        }
        Unit::Step { reached } => {
            let mut memory = after(&side, &file, reached);
            go_on(&side, &file, &mut memory, times);
        }
    }
    Ok(())
}
