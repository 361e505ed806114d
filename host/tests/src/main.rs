//! Runs the table, the random comparison and the machine's scenarios and prints a line for each group.

use tests::case::Group;
use tests::random::{self, Tally, KINDS};
use tests::report::Outcome;
use tests::{machine, scale, sides, worked, Side};

/// The random files of a run of scale 1.
const FILES: u64 = 250_000;

/// The sum of all comparisons.
#[derive(Default)]
struct Total {
    passed: usize,
    failed: usize,
}

impl Total {
    /// Prints a group and adds its numbers.
    fn add(&mut self, group: &str, side: &str, outcome: &Outcome) {
        outcome.print(group, side);
        self.passed += outcome.passed;
        self.failed += outcome.failed;
    }
}

/// The stack that the checks get for the worked files, which include the deepest trees.
const SMALL_STACK: usize = 1 << 20;

/// One group's files on one side, on a small stack; a panic counts as a failure or ends the program and fails it.
fn run_group(group: &Group, side: &Side) -> Outcome {
    let judge = || {
        let mut outcome = Outcome::default();
        for case in &group.cases {
            let got = (side.check)(&case.file);
            outcome.compare(|| case.name.clone(), &case.file, case.expected, got);
        }
        outcome
    };
    std::thread::scope(|scope| {
        let thread = std::thread::Builder::new().stack_size(SMALL_STACK).spawn_scoped(scope, judge);
        match thread.map(|t| t.join()) {
            Ok(Ok(outcome)) => outcome,
            _ => Outcome { failed: group.cases.len(), ..Outcome::default() },
        }
    })
}

/// The worked files on every side.
fn run_table(sides: &[Side], total: &mut Total) {
    for group in worked::groups() {
        for side in sides {
            total.add(group.name, side.name, &run_group(&group, side));
        }
    }
}

/// The random files on every side but the reference, which gives the answers.
fn run_random(sides: &[Side], total: &mut Total) {
    let tally = random::run(FILES * scale(), sides);
    for (kind, outcomes) in KINDS.iter().zip(&tally.outcomes) {
        for (side, outcome) in sides.iter().zip(outcomes) {
            total.add(kind, side.name, outcome);
        }
    }
    print_answers(&tally);
    total.add("valid files are accepted", "reference", &all_accepted(&tally));
    total.add("aimed defects hit", "reference", &aim(&tally));
}

/// Prints how many random files were accepted and how many each question refused.
fn print_answers(tally: &Tally) {
    let sum = |question: usize| tally.answers.iter().map(|row| row[question]).sum::<usize>();
    let refused: Vec<String> = (1..15).map(|q| format!("{q}: {}", sum(q))).collect();
    println!("  random files accepted: {}, refused by {}", sum(0), refused.join(", "));
}

/// Whether the reference accepted every valid file.
fn all_accepted(tally: &Tally) -> Outcome {
    let row = tally.answers[0];
    let refused = row[1..].iter().sum();
    Outcome { passed: row[0], failed: refused, differences: Vec::new() }
}

/// Whether each aimed defect hit its question at least once in eight files, and each header byte from 8 on some; prints how often.
fn aim(tally: &Tally) -> Outcome {
    let mut outcome = Outcome::default();
    for (question, row) in tally.answers.iter().enumerate().take(15).skip(1) {
        let files: usize = row.iter().sum();
        println!(
            "  aimed at {question:>2}: {} of {files} refused there, {} accepted",
            row[question], row[0]
        );
        let enough = row[question] * 8 >= files;
        outcome.same(|| format!("aimed at {question}"), &[], true, enough);
    }
    let [edition, zeros @ ..] = tally.header;
    println!("  aimed at the edition: {edition}, at the header's zeros: {zeros:?}");
    for (byte, files) in (8..).zip(tally.header) {
        outcome.same(|| format!("aimed at header byte {byte}"), &[], true, files > 0);
    }
    outcome
}

/// Runs everything on a thread whose stack holds the deepest trees.
fn run() -> Total {
    let sides = sides();
    let mut total = Total::default();
    if sides.len() < 3 {
        println!("the proved library is not linked (feature `proved`)");
    }
    run_table(&sides, &mut total);
    run_random(&sides[1..], &mut total);
    #[cfg(feature = "proved")]
    total.add("start, answer and memory", "proved", &tests::starts::outcome());
    #[cfg(feature = "machine")]
    total.add("answers by their room", "proved", &tests::rooms::outcome());
    machine::run(&mut |group, side, outcome| total.add(group, side, outcome));
    #[cfg(all(feature = "machine", target_arch = "x86_64", target_os = "linux"))]
    total.add("stack of every entry point", "proved", &tests::stack::outcome());
    total
}

/// The limits that two words say, and those of the library where there are none.
#[cfg(all(feature = "machine", target_arch = "x86_64", target_os = "linux"))]
fn limits(words: &[String]) -> Option<tests::stack::Limits> {
    match words {
        [] => Some(tests::stack::LIMITS),
        [small, any] => {
            Some(tests::stack::Limits { small: small.parse().ok()?, any: any.parse().ok()? })
        }
        _ => None,
    }
}

/// What the stack is asked: `stack` prints what every call needs, `stack held [SMALL ANY]` holds it to limits too, and
/// `stack threads [SMALL ANY]` makes every call on threads with so much.
#[cfg(all(feature = "machine", target_arch = "x86_64", target_os = "linux"))]
fn stack(words: &[String]) -> Option<bool> {
    let (first, rest) = words.split_first()?;
    match (first.as_str(), words.get(1).map(String::as_str)) {
        ("stack", None) => Some(tests::stack::run(None)),
        ("stack", Some("held")) => Some(tests::stack::run(Some(limits(&rest[1..])?))),
        ("stack", Some("threads")) => Some(tests::stack::on_threads(limits(&rest[1..])?)),
        _ => None,
    }
}

/// Without the proved library, and on other machines, nothing of the stack is measured.
#[cfg(not(all(feature = "machine", target_arch = "x86_64", target_os = "linux")))]
fn stack(_: &[String]) -> Option<bool> {
    None
}

/// Everything, or what the words ask.
fn asked() -> Total {
    let words: Vec<String> = std::env::args().skip(1).collect();
    if words.is_empty() {
        return run();
    }
    match stack(&words) {
        Some(true) => Total { passed: 1, failed: 0 },
        Some(false) => Total { passed: 0, failed: 1 },
        None => {
            eprintln!("tests [stack [held [SMALL ANY] | threads [SMALL ANY]]], on x86-64 Linux with the feature `machine`");
            Total { passed: 0, failed: 1 }
        }
    }
}

/// Prints the sum last and fails if anything failed.
fn main() -> std::process::ExitCode {
    let thread = std::thread::Builder::new().stack_size(64 << 20).spawn(asked);
    let total = thread.map(|t| t.join());
    let total = match total {
        Ok(Ok(total)) => total,
        _ => Total { passed: 0, failed: 1 },
    };
    println!("{} passed, {} failed", total.passed, total.failed);
    std::process::ExitCode::from(u8::from(total.failed != 0))
}
