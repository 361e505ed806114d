//! Medians of times.

use std::hint::black_box;
use std::time::{Duration, Instant};
use tests::machine::Entries;
use tests::{sides, Answer, Side};

/// A check under time.
type Check = fn(&[u8]) -> Answer;

/// The check to judge, which is the proved one where it is linked.
pub fn judged() -> Side {
    let all = sides();
    *all.get(2).unwrap_or(&all[0])
}

/// The check to judge and the fast plain one.
pub fn checks() -> [Check; 2] {
    [judged().check, reference::fast::check]
}

/// The samples of which the median is taken.
const SAMPLES: usize = 25;

/// The least time of a sample.
const SAMPLE: Duration = Duration::from_micros(300);

/// The time of so many calls.
fn time(call: &mut dyn FnMut(), calls: u32) -> Duration {
    let start = Instant::now();
    for _ in 0..calls {
        call();
    }
    start.elapsed()
}

/// The calls that fill a sample.
fn calls_for(call: &mut dyn FnMut()) -> u32 {
    let mut calls = 1;
    while time(call, calls) < SAMPLE && calls < 1 << 20 {
        calls *= 2;
    }
    calls
}

/// The median nanoseconds of one check of a file by each check.
pub fn medians(file: &[u8], checks: [Check; 2]) -> [f64; 2] {
    medians_of([&mut || ask(checks[0], file), &mut || ask(checks[1], file)])
}

/// One check of a file.
pub fn ask(check: Check, file: &[u8]) {
    black_box(check(black_box(file)));
}

/// A call under time.
pub type Call<'a> = Box<dyn FnMut() + 'a>;

/// The median nanoseconds of each call, with the samples taken in turn.
pub fn medians_of<const N: usize>(calls: [&mut dyn FnMut(); N]) -> [f64; N] {
    let mut medians = medians_of_all(calls.into_iter().map(|call| Box::new(call) as Call));
    std::array::from_fn(|_| medians.remove(0))
}

/// The same of any number of calls.
pub fn medians_of_all<'a>(calls: impl Iterator<Item = Call<'a>>) -> Vec<f64> {
    let mut timed: Vec<_> =
        calls.map(|mut call| (calls_for(&mut call), call, Vec::new())).collect();
    for _ in 0..SAMPLES {
        for (count, call, samples) in &mut timed {
            let taken = time(call, *count);
            samples.push(taken.as_nanos() as f64 / f64::from(*count));
        }
    }
    timed.into_iter().map(|(_, _, samples)| median(samples)).collect()
}

/// The median, which is between the two in the middle where their number is even.
pub fn median(mut samples: Vec<f64>) -> f64 {
    samples.sort_by(f64::total_cmp);
    let half = samples.len() / 2;
    (samples[half] + samples[samples.len() - 1 - half]) / 2.0
}

/// A file and the memory of a state of its program.
pub type Reached = (Vec<u8>, Vec<u32>);

/// One run of one side.
pub fn go_on(side: &Entries, file: &[u8], memory: &mut [u32], allowance: u64) {
    assert!(black_box((side.run)(black_box(file), memory, allowance)).is_ok());
}

/// The nanoseconds of a step from each memory on each side: a run of so many less a run of none, all timed in turn.
pub fn step_times(sides: &[Entries], from: &[Reached], steps: u64) -> Vec<Vec<f64>> {
    let ways = || [0, steps].into_iter().flat_map(|n| sides.iter().map(move |&side| (side, n)));
    let calls = from.iter().flat_map(|(file, memory)| {
        ways().map(move |(side, allowance)| {
            let mut memory = memory.clone();
            Box::new(move || go_on(&side, file, &mut memory, allowance)) as Call
        })
    });
    let each = |times: &[f64]| {
        let (none, many) = times.split_at(sides.len());
        let step = |(none, many): (&f64, &f64)| (many - none).max(0.0) / steps as f64;
        none.iter().zip(many).map(step).collect()
    };
    medians_of_all(calls).chunks_exact(2 * sides.len()).map(each).collect()
}
