//! The earlier release and this one side by side, after every single step.

use crate::steps::{is_known, programs};
use generators::rng::Rng;
use generators::{calls, lively};
use reference::image::WORDS;
use tests::machine::Entries;
use tests::report::Outcome;
use tests::{before, proved, scale, used, TAIL};

/// The random programs of a run of scale 1.
const PROGRAMS: u64 = 3_000;

/// The most steps of a program that may have no end.
const MOST: u64 = 400;

/// The variables that are looked up: the first and the last of the parameters and of all variables.
const LOOKED_UP: [u32; 4] = [0, 7, 8, 63];

/// The steps from one memory check with its look-ups to the next.
const APART: u64 = 4;

/// The earlier release and this one.
const RELEASES: [Entries; 2] = [before::ENTRIES, proved::ENTRIES];

/// What was compared and what came of it.
#[derive(Default)]
struct Compared {
    files: u64,
    steps: u64,
    words: u64,
    outcome: Outcome,
}

/// A program with a memory lent to each release.
struct Pair<'a> {
    name: &'a str,
    file: &'a [u8],
    memories: [Vec<u32>; 2],
}

impl Pair<'_> {
    /// What both releases answer.
    fn both<T>(&mut self, call: impl Fn(&Entries, &mut [u32]) -> T) -> [T; 2] {
        let [first, second] = &mut self.memories;
        [call(&RELEASES[0], first), call(&RELEASES[1], second)]
    }
}

impl Compared {
    /// Compares what both releases answered.
    fn answers<T: PartialEq + std::fmt::Debug>(&mut self, pair: &Pair, call: &str, both: [T; 2]) {
        let [first, second] = both;
        self.outcome.same(|| format!("{}, {call}", pair.name), pair.file, first, second);
    }

    /// Compares all words that both releases have.
    fn memories(&mut self, pair: &Pair, after: &str) {
        let [first, second] = &pair.memories;
        self.words += first.len() as u64;
        let name = || format!("{}, memory after {after}", pair.name);
        self.outcome.words(name, pair.file, first, second);
    }

    /// Compares the memory checks and the look-ups of some variables.
    fn looks(&mut self, pair: &mut Pair, after: &str) {
        let file = pair.file;
        let both = pair.both(|side, memory| (side.memory_check)(file, memory));
        self.answers(pair, &format!("memory check after {after}"), both);
        for x in LOOKED_UP {
            let both = pair.both(|side, memory| (side.look_up)(file, memory, x));
            self.answers(pair, &format!("look-up of {x} after {after}"), both);
        }
    }

    /// Takes one program on by single steps to its end, so many steps at most or the first difference.
    fn program(&mut self, name: &str, file: &[u8], most: u64) {
        self.files += 1;
        let failed = self.outcome.failed;
        let mut pair = Pair { name, file, memories: [(); 2].map(|()| used(WORDS + TAIL)) };
        let checked = [before::check(file), proved::check(file)];
        self.outcome.compare(|| format!("{name}, check"), file, checked[0], checked[1]);
        let both = pair.both(|side, memory| (side.start)(file, memory));
        let mut goes_on = both == [None; 2];
        self.answers(&pair, "start", both);
        self.memories(&pair, "the start");
        for step in 1..=most {
            if !goes_on || self.outcome.failed > failed {
                break;
            }
            let both = pair.both(|side, memory| (side.run)(file, memory, 1));
            goes_on = matches!(both[0], Ok((_, 1)));
            self.steps += u64::from(goes_on);
            let after = format!("step {step}");
            self.answers(&pair, &after, both);
            self.memories(&pair, &after);
            if step % APART == 0 || !goes_on {
                self.looks(&mut pair, &after);
            }
        }
    }

    /// Compares a group of programs and prints its line.
    fn group(&mut self, name: &str, programs: impl Iterator<Item = (String, Vec<u8>)>, most: u64) {
        let mut own = Compared::default();
        programs.for_each(|(name, file)| own.program(&name, &file, most));
        own.outcome.print(name, "releases");
        self.files += own.files;
        self.steps += own.steps;
        self.words += own.words;
        self.outcome.add(own.outcome);
    }
}

/// A random program by its seed, in edition 0 where the earlier release knows no other.
fn random(seed: u64) -> (String, Vec<u8>) {
    let mut file = lively::draw(&mut Rng::new(7_000_000 + seed));
    if !is_known(&file) {
        file.header.edition = 0;
    }
    (format!("random program {seed}"), file.bytes())
}

/// Compares every group and gives whether no answer and no word differs.
pub fn run() -> Result<bool, String> {
    println!("expected: what the earlier release answers; got: what this one does");
    let mut total = Compared::default();
    let calls = calls::programs().into_iter().map(|(name, file)| (name, file.bytes()));
    total.group("calls of 0 to 8 arguments", calls, u64::MAX);
    let endless = programs().into_iter().map(|(name, make)| (name.to_string(), make().bytes()));
    total.group("endless programs", endless, MOST);
    total.group("random programs", (0..PROGRAMS * scale()).map(random), MOST);
    let Compared { files, steps, words, outcome } = total;
    println!("compared: {files} files, {steps} steps, {words} words");
    println!("releases: {} passed, {} failed", outcome.passed, outcome.failed);
    Ok(outcome.failed == 0)
}
