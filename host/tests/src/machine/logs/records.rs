//! Last records that are cut, changed, of other runs and of other layouts, and those of the papers' reader.

use super::super::fitness::{sample, sample_file};
use super::super::trial::{Model, Trial};
use super::super::{worked, Entries};
use super::states::{file_of_fullest, fullest, CHANGED};
use crate::report::Outcome;
use crate::Answer;
use generators::rng::Rng;
use generators::{endless, lively};
use reference::image::{encode, WORDS};
use reference::log::{record, LONGEST, MOST_PAIRS};
use reference::machine::{Control, Frame, Outcome as End, Ref, State, Value};

/// A place with its word.
type Pair = (u16, u32);

/// What a step back answers that the record leads nowhere.
const NOWHERE: Answer = Some((18, 0, 0));

/// All of it.
pub fn outcome(side: &Entries) -> Outcome {
    let mut outcome = Outcome::default();
    for seed in 0..6 {
        outcome.add(disturbed(side, seed));
    }
    outcome.add(orders(side));
    outcome.add(numbers(side));
    outcome.add(worked_states(side));
    outcome.add(between(side));
    outcome.add(widest(side));
    outcome
}

/// A record of pairs with a number at its end.
fn pairs(all: &[Pair], number: u16) -> Vec<u8> {
    let told = all.iter().flat_map(|(place, word)| {
        let (place, word) = (place.to_le_bytes(), word.to_le_bytes());
        [place[0], place[1], word[0], word[1], word[2], word[3]]
    });
    b"BK".iter().copied().chain(told).chain(number.to_le_bytes()).collect()
}

/// A record of all words of a state's image.
fn whole(state: &State) -> Vec<u8> {
    let words = encode(state);
    let told = words.iter().flat_map(|word| word.to_le_bytes());
    b"BK".iter().copied().chain(told).chain([255; 2]).collect()
}

/// A step back by a record that stands alone in its log, which must be refused so; an accepted one uses all of it.
fn by(
    side: &Entries,
    model: &Model,
    name: &str,
    from: &State,
    log: Vec<u8>,
    expected: Answer,
) -> Outcome {
    let mut trial = Trial::new(side, model, name.to_string(), from.clone());
    let length = log.len() as u64;
    trial.lend(log, length);
    let got = trial.step_back();
    trial.outcome.compare(|| name.to_string(), &model.file, expected, got);
    let left = if expected.is_none() { 0 } else { length };
    trial.outcome.same(|| format!("{name}, used"), &model.file, left, trial.used);
    trial.outcome
}

/// A random program whose run has steps enough.
fn lasting(rng: &mut Rng) -> Model {
    loop {
        let model = Model::new(&lively::draw(rng));
        if model.after(100).2 == 100 {
            return model;
        }
    }
}

/// The last record of a random run with each used length up to its end and with each bit of its bytes turned.
fn disturbed(side: &Entries, seed: u64) -> Outcome {
    let mut rng = Rng::new(9_500_000 + seed);
    let model = lasting(&mut rng);
    let (state, _, _) = model.after(5 + 10 * seed);
    let mut trial = Trial::new(side, &model, format!("disturbed {seed}"), state);
    trial.lend(super::noise(&mut rng, 400), 60);
    trial.run_logged(2);
    let from = trial.used as usize;
    trial.run_logged(1);
    let (after, log, end) = (trial.state.clone(), trial.log.clone(), trial.used as usize);
    let mut tries: Vec<(usize, Vec<u8>)> = (0..=end).map(|used| (used, log.clone())).collect();
    for bit in 8 * from..8 * end {
        let mut turned = log.clone();
        turned[bit / 8] ^= 1 << (bit % 8);
        tries.push((end, turned));
    }
    let mut outcome = trial.outcome;
    outcome.same(|| "a record to disturb".to_string(), &model.file, true, end >= from + 10);
    for (used, log) in tries {
        let mut trial = Trial::new(side, &model, format!("disturbed {seed}"), after.clone());
        trial.lend(log, used as u64);
        trial.step_back();
        outcome.add(trial.outcome);
    }
    outcome
}

/// A step of a loop: the states before and after it, and the words that it changes as they were.
struct Step {
    model: Model,
    before: State,
    after: State,
    told: Vec<Pair>,
}

impl Step {
    /// The forty-first step of a program that counts.
    fn new() -> Step {
        let model = Model::new(&endless::counting());
        let ((before, ..), (after, ..)) = (model.after(40), model.after(41));
        let (from, to) = (encode(&before), encode(&after));
        let places = (0..WORDS).filter(|&place| from[place] != to[place]);
        let told = places.map(|place| (place as u16, from[place])).collect();
        Step { model, before, after, told }
    }

    /// So many pairs: those of the step, and the first of them again and again.
    fn repeated(&self, number: usize) -> Vec<Pair> {
        self.told.iter().chain(std::iter::repeat(&self.told[0])).take(number).copied().collect()
    }
}

/// Records of one step with other pairs than a logged run writes, or in another order.
fn orders(side: &Entries) -> Outcome {
    let mut outcome = Outcome::default();
    let step = Step::new();
    let told = &step.told;
    let (count, wrong) = (told.len() as u16, (told[0].0, told[0].1 ^ 1));
    let falling: Vec<Pair> = told.iter().rev().copied().collect();
    let with = |more: &[Pair], also: &[Pair]| [more, told, also].concat();
    let strange = with(&[(16_384, 5)], &[(65_535, 5)]);
    let cases = [
        ("as it is written", pairs(told, count), None),
        ("places that fall", pairs(&falling, count), None),
        ("a place twice, the right word last", pairs(&with(&[wrong], &[]), count + 1), None),
        ("a place twice, the wrong word last", pairs(&with(&[], &[wrong]), count + 1), NOWHERE),
        ("places that no image has", pairs(&strange, count + 2), None),
        ("a word that did not change", pairs(&with(&[(16_383, 0)], &[]), count + 1), None),
        ("a word that was zero", pairs(&with(&[(16_383, 1)], &[]), count + 1), NOWHERE),
        ("a pair less", pairs(&told[1..], count - 1), NOWHERE),
        ("no pair", pairs(&[], 0), NOWHERE),
    ];
    for (name, log, expected) in cases {
        outcome.add(by(side, &step.model, name, &step.after, log, expected));
    }
    outcome
}

/// Records of one step with other numbers and marks, of the most pairs and more, and of all words.
fn numbers(side: &Entries) -> Outcome {
    let mut outcome = Outcome::default();
    let step = Step::new();
    let (told, count) = (&step.told, step.told.len() as u16);
    let all = whole(&step.before);
    let many = |number: usize| pairs(&step.repeated(number), number as u16);
    let cases = [
        ("a number too high", pairs(told, count + 1), NOWHERE),
        ("a number too low", pairs(told, count - 1), NOWHERE),
        ("the mark alone", b"BK".to_vec(), NOWHERE),
        ("another mark", [b"KB", &pairs(told, count)[2..]].concat(), NOWHERE),
        ("half a mark", [b"BB", &pairs(told, count)[2..]].concat(), NOWHERE),
        ("the most pairs", many(MOST_PAIRS), None),
        ("a pair more", many(MOST_PAIRS + 1), NOWHERE),
        ("65,534 pairs", many(65_534), NOWHERE),
        ("65,535 pairs", many(65_535), NOWHERE),
        ("all words of the state after", whole(&step.after), NOWHERE),
        ("all words, a byte short", all[1..].to_vec(), NOWHERE),
        ("all words, 65,534", [&all[..LONGEST - 2], &[254, 255]].concat(), NOWHERE),
        ("all words", all, None),
    ];
    for (name, log, expected) in cases {
        outcome.add(by(side, &step.model, name, &step.after, log, expected));
    }
    outcome
}

/// Records of states with the answers that a reader of the papers gives.
fn worked_states(side: &Entries) -> Outcome {
    let mut outcome = Outcome::default();
    let model = Model::new(&sample_file());
    let (two, three) = (State::Returned(2), State::Returned(3));
    let waits = |left, right| {
        let frames = [Frame::Second { op: 3, left }, Frame::Return];
        sample::alone(Control::Value(Value::Int(right)), &[Value::Nothing; 2], &frames)
    };
    let waiting = [Frame::Stmt(Ref::Node(6)), Frame::Stmt(Ref::Node(11))];
    let called = |node, held| sample::called(5, Control::Stmt(Ref::Node(node)), &[held], &waiting);
    let (unfit, declared) = (called(8, Value::Int(5)), called(7, Value::Nothing));
    let cases: [(&str, &State, &State, Answer); 9] = [
        ("main() from an end", &State::Value(0), &State::Main, NOWHERE),
        ("main() from itself", &State::Main, &State::Main, NOWHERE),
        ("value(2) from 2", &two, &State::Value(2), None),
        ("value(2) from 3", &three, &State::Value(2), NOWHERE),
        ("value(2) from value(2)", &State::Value(2), &State::Value(2), NOWHERE),
        ("arith from a division", &waits(1, 0), &State::Arith, None),
        ("arith from another division", &waits(i32::MIN, -1), &State::Arith, None),
        ("arith from a division with a result", &waits(1, 1), &State::Arith, NOWHERE),
        ("an unfit state whose step leads here", &unfit, &declared, NOWHERE),
    ];
    for (name, earlier, present, expected) in cases {
        for log in [record(&encode(earlier), &encode(present)), whole(earlier)] {
            outcome.add(by(side, &model, name, present, log, expected));
        }
    }
    // A record of the words that changed is one of any int's last step.
    let log = record(&encode(&three), &encode(&State::Value(3)));
    outcome.add(by(side, &model, "value(2) by the changes of 3", &State::Value(2), log, None));
    outcome
}

/// Another start, a step or another run between the logged steps and the step back, and the state that is Full.
fn between(side: &Entries) -> Outcome {
    let model = Model::new(&worked::calls_itself());
    let mut trial = Trial::started(side, &model, "a call between".to_string());
    trial.lend(vec![0; 4_000], 0);
    let refused = |trial: &mut Trial, expected: Answer| {
        let got = trial.step_back();
        let name = || format!("{}, step back", trial.label);
        trial.outcome.compare(name, &trial.model.file, expected, got);
    };
    trial.run_logged(9);
    trial.start();
    refused(&mut trial, NOWHERE);
    trial.run(9);
    refused(&mut trial, None);
    trial.run(2);
    refused(&mut trial, NOWHERE);
    trial.step_back();
    let (end, ..) = trial.run_logged(100);
    trial.outcome.same(|| "the deepest state".to_string(), &model.file, End::Full, end);
    let (deepest, log, used) = (trial.state.clone(), trial.log.clone(), trial.used);
    refused(&mut trial, None);
    // The state that is Full takes no step, so nothing comes after it.
    let full =
        by(side, &model, "from the state that is Full", &trial.state, whole(&deepest), NOWHERE);
    trial.outcome.add(full);
    let other = Model::new(&worked::declares_again());
    let (state, _, _) = other.after(12);
    let mut elsewhere = Trial::new(side, &other, "a record of another program".to_string(), state);
    elsewhere.lend(log, used);
    refused(&mut elsewhere, NOWHERE);
    trial.outcome.add(elsewhere.outcome);
    trial.outcome
}

/// The step that changes the most words, with room for its record and with one byte less.
fn widest(side: &Entries) -> Outcome {
    let model = Model::new(&file_of_fullest());
    let mut trial = Trial::new(side, &model, "the fullest state".to_string(), fullest());
    trial.memory_check();
    let length = 4 + 6 * CHANGED;
    for (room, expected) in
        [(length - 1, (End::LogFull, 0, 0)), (length, (End::Arith, 1, length as u64))]
    {
        trial.lend(vec![1; room], 0);
        let got = trial.run_logged(2);
        trial.outcome.same(|| format!("a log of {room} bytes"), &model.file, expected, got);
    }
    let got = trial.step_back();
    trial.outcome.compare(|| "the fullest state again".to_string(), &model.file, None, got);
    let all =
        by(side, &model, "the fullest state by all words", &State::Arith, whole(&fullest()), None);
    trial.outcome.add(all);
    trial.outcome
}
