//! Random files from fixed seeds: every side against the reference.

use crate::report::Outcome;
use crate::{Answer, Side};
use generators::rng::Rng;
use generators::{aimed, noise, valid, File, Names};

/// The kinds of random file.
pub const KINDS: [&str; 25] = [
    "valid files",
    "aimed at question 1",
    "aimed at question 2",
    "aimed at question 3",
    "aimed at question 4",
    "aimed at question 5",
    "aimed at question 6",
    "aimed at question 7",
    "aimed at question 8",
    "aimed at question 9",
    "aimed at question 10",
    "aimed at question 11",
    "aimed at question 12",
    "aimed at question 13",
    "aimed at question 14",
    "random bytes changed",
    "random fields changed",
    "nodes moved",
    "cut or extended",
    "nonsense",
    "two or three defects",
    "reads of any variable in scope",
    "any variables named",
    "reads of what some way assigned",
    "reads after early returns",
];

/// What came of some seeds: an outcome for each kind and side, and how often each answer came.
pub struct Tally {
    pub outcomes: Vec<Vec<Outcome>>,
    /// The number of files of each kind that got each question, 0 for accepted.
    pub answers: [[usize; 15]; KINDS.len()],
    /// The files aimed at question 2 and refused there of which each header byte from 8 on is wrong.
    pub header: [usize; 4],
}

impl Tally {
    /// Nothing counted yet.
    fn new(sides: usize) -> Tally {
        let row = || (0..sides).map(|_| Outcome::default()).collect();
        let outcomes = KINDS.iter().map(|_| row()).collect();
        Tally { outcomes, answers: [[0; 15]; KINDS.len()], header: [0; 4] }
    }

    /// Adds what another thread found.
    fn add(&mut self, other: Tally) {
        for (own, others) in self.outcomes.iter_mut().zip(other.outcomes) {
            own.iter_mut().zip(others).for_each(|(own, other)| own.add(other));
        }
        for (own, others) in self.answers.iter_mut().zip(other.answers) {
            own.iter_mut().zip(others).for_each(|(own, other)| *own += other);
        }
        self.header.iter_mut().zip(other.header).for_each(|(own, other)| *own += other);
    }

    /// Asks all sides about a file and compares their answers with the reference's.
    fn ask(&mut self, kind: usize, seed: u64, file: &[u8], sides: &[Side]) {
        let expected: Answer = reference::check(file);
        let question = expected.map_or(0, |(question, _, _)| usize::from(question));
        self.answers[kind][question] += 1;
        if (kind, question) == (2, 2) {
            let most = [1, 0, 0, 0];
            let wrong = file[8..12].iter().zip(most).map(|(byte, most)| usize::from(*byte > most));
            self.header.iter_mut().zip(wrong).for_each(|(count, wrong)| *count += wrong);
        }
        for (side, outcome) in sides.iter().zip(&mut self.outcomes[kind]) {
            let got = (side.check)(file);
            outcome.compare(|| format!("{}, seed {seed}", KINDS[kind]), file, expected, got);
        }
    }
}

/// The file of a kind made from a valid one.
fn made(kind: usize, file: &File, rng: &mut Rng) -> Vec<u8> {
    match kind {
        0 => file.bytes(),
        1..=14 => aimed::spoil(kind as u8, file, rng),
        15 => noise::bytes(file.bytes(), rng),
        16 => noise::fields(file, rng),
        17 => noise::nodes(file, rng),
        18 => noise::length(file.bytes(), rng),
        19 => noise::nonsense(rng),
        20 => aimed::spoil_twice(file, rng),
        21 => valid::draw_loose(rng, Names::Scoped).bytes(),
        22 => valid::draw_loose(rng, Names::Any).bytes(),
        23 => valid::draw_loose(rng, Names::Touched).bytes(),
        _ => valid::draw_loose(rng, Names::Early).bytes(),
    }
}

/// One valid file and one file of each other kind made from it, for each seed of a range.
fn judge_seeds(seeds: std::ops::Range<u64>, sides: &[Side]) -> Tally {
    let mut tally = Tally::new(sides.len());
    for seed in seeds {
        let mut rng = Rng::new(seed);
        let file = valid::draw(&mut rng);
        for kind in 0..KINDS.len() {
            let bytes = made(kind, &file, &mut rng);
            tally.ask(kind, seed, &bytes, sides);
        }
    }
    tally
}

/// Judges at least so many files on two threads with stacks for deep trees.
pub fn run(files: u64, sides: &[Side]) -> Tally {
    let seeds = files.div_ceil(KINDS.len() as u64);
    let mut tally = Tally::new(sides.len());
    std::thread::scope(|scope| {
        let halves = [0..seeds / 2, seeds / 2..seeds];
        let threads: Vec<_> = halves
            .into_iter()
            .filter_map(|half| {
                let builder = std::thread::Builder::new().stack_size(64 << 20);
                builder.spawn_scoped(scope, move || judge_seeds(half, sides)).ok()
            })
            .collect();
        for thread in threads {
            match thread.join() {
                Ok(part) => tally.add(part),
                Err(panic) => std::panic::resume_unwind(panic),
            }
        }
    });
    tally
}
