//! The check of accepted files by copies of the proved library, each at another place: where code lies changes its time.

use crate::grouped;
use bench::timing::{ask, medians_of_all, Call};
use generators::shapes;
use reference::fast;
use std::hint::black_box;

/// A copy's check.
type Check = unsafe extern "C" fn(*const u8, usize) -> u64;

/// The checks of the copies whose C functions begin with these prefixes.
macro_rules! copies {
    ($($prefix:literal)*) => {
        [$({
            extern "C" {
                #[link_name = concat!($prefix, "panelrue_check")]
                fn check(file: *const u8, length: usize) -> u64;
            }
            check as Check
        }),*]
    };
}

/// The copies, each 272 bytes further from the start of a page than the one before.
fn copies() -> [Check; 16] {
    copies!("at0_" "at1_" "at2_" "at3_" "at4_" "at5_" "at6_" "at7_" "at8_" "at9_" "at10_" "at11_" "at12_" "at13_" "at14_" "at15_")
}

/// The nodes of the files.
const NODES: usize = 4096;

/// The rounds of samples, of whose medians the least is taken: the machine has slow spells.
const ROUNDS: usize = 2;

/// The median nanoseconds of a check of a file by plain Rust and by each copy, in turn.
fn round(file: &[u8]) -> Vec<f64> {
    let copy = |check: Check| {
        // The pointer and the length are those of a slice that lives through the call.
        let call = move || unsafe { check(black_box(file.as_ptr()), file.len()) };
        assert_eq!(call(), 0, "the file is refused");
        Box::new(move || {
            black_box(call());
        }) as Call
    };
    let plain = Box::new(|| ask(fast::check, file)) as Call;
    medians_of_all([plain].into_iter().chain(copies().map(copy)))
}

/// The least of each median over the rounds.
fn times(file: &[u8]) -> Vec<f64> {
    let least = |a: Vec<f64>, b: Vec<f64>| a.iter().zip(&b).map(|(a, b)| a.min(*b)).collect();
    (0..ROUNDS).map(|_| round(file)).reduce(least).unwrap_or_default()
}

/// The least and the greatest of some numbers.
fn ends(numbers: impl Iterator<Item = f64>) -> [f64; 2] {
    let none = [f64::INFINITY, 0.0];
    numbers.fold(none, |[least, most], number| [least.min(number), most.max(number)])
}

/// Prints a row for each shape.
fn print() {
    println!("| accepted, {NODES} nodes | plain ns | least copy, ns | greatest copy, ns | least ratio | greatest ratio | its copy |");
    println!("|---|---:|---:|---:|---:|---:|---:|");
    for (shape, make) in shapes::ALL {
        let all = times(&make(NODES).bytes());
        let plain = all[0];
        let [least, most] = ends(all[1..].iter().copied());
        let copy = all[1..].iter().position(|&time| time == most).unwrap_or(0);
        let cells = [plain, least, most].map(grouped).join(" | ");
        println!("| {shape} | {cells} | {:.2} | {:.2} | {copy} |", least / plain, most / plain);
    }
}

/// Does something so many calls further down the stack.
fn below(depth: usize, then: &mut dyn FnMut()) {
    let room = black_box([depth; 2]);
    match depth {
        0 => then(),
        _ => below(depth - 1, then),
    }
    black_box(&room);
}

/// Prints the rows, measured that far down the stack.
pub fn run(depth: &str) -> Result<(), String> {
    let depth = depth.parse().map_err(|_| format!("{depth} is no number"))?;
    below(depth, &mut print);
    Ok(())
}
