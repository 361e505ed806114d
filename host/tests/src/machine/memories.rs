//! Images of reached states and of random states, images with one or two words changed, and random words.

use super::change::{double, single, undo};
use super::scatter::scatter;
use super::states::States;
use super::trial::{Model, Trial};
use super::Entries;
use crate::report::Outcome;
use generators::rng::Rng;
use generators::{lively, valid, Names};
use reference::calls::held;
use reference::image::{encode_into, WORDS};
use reference::machine::State;

/// The states of a program, of which every fourth is one that a run reaches.
const STATES: usize = 8;

/// The memories with one word changed, and with two, for each state.
const CHANGES: usize = 4;

/// The memories of random words for each state.
const SCATTERED: usize = 2;

/// The kinds of memory, each with the least number in a thousand that must be accepted.
const KINDS: [(&str, usize); 5] = [
    ("random states", 400),
    ("reached states", 1_000),
    ("one word changed", 50),
    ("two words changed", 50),
    ("random words", 50),
];
const RANDOM: usize = 0;
const REACHED: usize = 1;
const SINGLE: usize = 2;
const DOUBLE: usize = 3;
const WORDS_ALONE: usize = 4;

/// Changes a memory and gives what stood there.
type Change = fn(&mut Rng, &mut [u32]) -> Vec<(usize, u32)>;

/// How many memories of a kind were judged, and how many were fit.
#[derive(Default)]
struct Count {
    all: usize,
    fit: usize,
}

/// The memories of one side.
struct Memories<'a> {
    side: &'a Entries,
    outcome: Outcome,
    counts: [Count; KINDS.len()],
}

/// Judges at least so many memories.
pub fn outcome(side: &Entries, memories: u64) -> Outcome {
    let mut all = Memories { side, outcome: Outcome::default(), counts: Default::default() };
    let mut seed = 3_000_000;
    while all.counts.iter().map(|count| count.all as u64).sum::<u64>() < memories {
        all.program(seed);
        seed += 1;
    }
    // The judgement is empty where hardly any memory of a kind is accepted or, of changed ones, refused.
    for ((name, least), count) in KINDS.iter().zip(&all.counts) {
        println!("  {name}: {} of {} fit", count.fit, count.all);
        let enough = count.fit * 1_000 >= count.all * least;
        all.outcome.same(|| format!("enough fit memories, {name}"), &[], true, enough);
        let refused = *least == 1_000 || (count.all - count.fit) * 4 > count.all;
        all.outcome.same(|| format!("enough unfit memories, {name}"), &[], true, refused);
    }
    all.outcome
}

/// Each word of an image changed in turn.
pub fn each_word(side: &Entries) -> Outcome {
    let mut rng = Rng::new(7);
    let model = Model::new(&lively::draw(&mut rng));
    let mut all = Memories { side, outcome: Outcome::default(), counts: Default::default() };
    let (_, _, length) = model.after(2_000);
    let (state, _, _) = model.after(length / 2);
    let mut memory = vec![9; WORDS + 2];
    encode_into(&state, &mut memory);
    for at in 0..WORDS {
        let old = memory[at];
        memory[at] ^= 1 << rng.below(32);
        all.memory(&model, &mut rng, &mut memory, SINGLE, at as u64);
        memory[at] = old;
    }
    all.outcome
}

impl Memories<'_> {
    /// The states of one program, each with its changes, and random words.
    fn program(&mut self, seed: u64) {
        let mut rng = Rng::new(seed);
        let file = match rng.below(6) {
            0 => {
                let functions = rng.between(1, 5);
                let nodes = 2 * functions + rng.below(120);
                valid::draw_sized(&mut rng, functions, nodes, Names::Valued)
            }
            _ => lively::draw(&mut rng),
        };
        let model = Model::new(&file);
        let (_, _, length) = model.after(2_000);
        let states = States::new(&model.judge.program);
        for i in 0..STATES {
            let (state, kind) = match i % 4 {
                0 => (model.after(rng.below(length as usize + 1) as u64).0, REACHED),
                _ => (states.draw(&mut rng), RANDOM),
            };
            self.state(&model, &mut rng, state, kind, seed);
        }
    }

    /// The image of a state, as it is and changed, and random words.
    fn state(&mut self, model: &Model, rng: &mut Rng, state: State, kind: usize, seed: u64) {
        let mut memory = vec![seed as u32; WORDS + 2];
        encode_into(&state, &mut memory);
        self.memory(model, rng, &mut memory, kind, seed);
        let fit = model.judge.is_fit(&state);
        let got = held(&model.judge, &memory) == fit.then_some(state);
        self.outcome.same(|| format!("read back, seed {seed}"), &model.file, true, got);
        let changes: [(usize, Change); 2] = [(SINGLE, single), (DOUBLE, double)];
        for (kind, change) in changes.repeat(CHANGES) {
            let old = change(rng, &mut memory);
            self.memory(model, rng, &mut memory, kind, seed);
            undo(&mut memory, &old);
        }
        for _ in 0..SCATTERED {
            scatter(rng, &model.judge.program, &mut memory);
            self.memory(model, rng, &mut memory, WORDS_ALONE, seed);
        }
    }

    /// One memory: the verdict, and what the other calls make of it.
    fn memory(&mut self, model: &Model, rng: &mut Rng, memory: &mut [u32], kind: usize, seed: u64) {
        let state = held(&model.judge, memory);
        self.counts[kind].all += 1;
        self.counts[kind].fit += usize::from(state.is_some());
        let expected = if state.is_some() { None } else { Some((16, 0, 0)) };
        let got = (self.side.memory_check)(&model.file, memory);
        let name = || format!("seed {seed}, head {:?}", &memory[..5]);
        self.outcome.compare(name, &model.file, expected, got);
        match state {
            Some(state) => {
                let label = format!("from a memory, seed {seed}");
                let mut trial = Trial::new(self.side, model, label, state);
                trial.run(rng.below(4) as u64);
                trial.look_up(rng.below(4) as u32);
                trial.run(rng.below(60) as u64);
                trial.memory_check();
                self.outcome.add(trial.outcome);
            }
            None if rng.one_in(8) => self.refused(model, memory, seed),
            _ => {}
        }
    }

    /// Run and look-up refuse an unfit memory and leave it as it is.
    fn refused(&mut self, model: &Model, memory: &mut [u32], seed: u64) {
        let before = memory.to_vec();
        let run = (self.side.run)(&model.file, memory, 9).err();
        let looked = (self.side.look_up)(&model.file, memory, 0).err();
        let name = || format!("refused, seed {seed}");
        self.outcome.same(name, &model.file, [Some((16, 0, 0)); 2], [run, looked]);
        self.outcome.words(name, &model.file, &before, memory);
    }
}
