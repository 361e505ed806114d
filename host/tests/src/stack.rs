//! What every entry point of the proved library needs of the stack, measured, and held to limits.
//!
//! A call gets a stack of its own. It is painted first, and afterwards the lowest changed word shows what the call wrote. That does not
//! show a touch that changes nothing, so the call is made again in second processes on stacks that are cut off, down to the least bytes
//! in which it returns.

mod files;
mod known;
mod region;
mod trial;

use crate::report::Outcome;
use files::Label;
use reference::machine::run::{CALLERS, FRAMES};
use region::Region;
use trial::{Measured, Trial, LOGGED, NAMES};

/// The most nodes of a small file.
pub const SMALL: usize = 256;

/// The most bytes that a call may need: with a small file, and with any.
#[derive(Clone, Copy)]
pub struct Limits {
    pub small: usize,
    pub any: usize,
}

/// The limits that the library is held to.
pub const LIMITS: Limits = Limits { small: 32 << 10, any: 256 << 10 };

/// The bytes that a call with a log may need more.
const LOG: usize = 65 << 10;

impl Limits {
    /// The limit of a call with a file of so many nodes, which has a log or not.
    fn of(self, nodes: usize, is_logged: bool) -> usize {
        let limit = if nodes <= SMALL { self.small } else { self.any };
        limit.saturating_add(if is_logged { LOG } else { 0 })
    }
}

/// What a thread of this program takes of its stack beside the call.
const THREAD: usize = 16 << 10;

/// A row of the table: the most that a call of each entry point needed, with files of one kind.
struct Row {
    name: String,
    size: usize,
    nodes: usize,
    cells: [Option<Measured>; NAMES.len()],
}

impl Row {
    /// Whether the row is of small files.
    fn is_small(&self) -> bool {
        self.nodes <= SMALL
    }
}

/// Everything that was measured.
#[derive(Default)]
struct Table {
    rows: Vec<Row>,
    calls: usize,
    /// The calls that needed more than what they wrote, with the unit that bytes are counted in, and the most that one needed more.
    beyond: (usize, usize),
    /// How often each question refused, 0 for accepted, in small files and in others.
    answers: [[usize; 19]; 2],
    outcome: Outcome,
}

impl Table {
    /// Measures a call and adds it to its row.
    fn add(&mut self, region: &mut Region, label: &Label, trial: &Trial) {
        let (answer, measured) = trial.measured(region);
        let (Label { name, size, nodes }, column) = (*label, trial.entry.column());
        let call = || format!("{name}, {nodes} nodes, {}", NAMES[column]);
        self.outcome.compare(call, trial.file, trial.expected(), answer);
        let question = answer.map_or(0, |refusal| usize::from(refusal.0));
        self.answers[usize::from(nodes > SMALL)][question] += 1;
        self.calls += 1;
        let over = measured.needs - measured.written.next_multiple_of(region::UNIT);
        self.beyond = (self.beyond.0 + usize::from(over > 0), self.beyond.1.max(over));
        let row = self.row(name, size);
        row.nodes = row.nodes.max(nodes);
        let cell = row.cells[column].get_or_insert(measured);
        if measured.needs > cell.needs {
            *cell = measured;
        }
    }

    /// The row of a name and a size, a new one where there is none.
    fn row(&mut self, name: &str, size: usize) -> &mut Row {
        let at = self.rows.iter().position(|row| row.name == name && row.size == size);
        let at = at.unwrap_or(self.rows.len());
        if at == self.rows.len() {
            let (name, cells) = (name.to_string(), [None; NAMES.len()]);
            self.rows.push(Row { name, size, nodes: 0, cells });
        }
        &mut self.rows[at]
    }

    /// Measures every call.
    fn measured() -> Table {
        let (mut table, mut region) = (Table::default(), Region::new());
        table.outcome.add(known::outcome(&mut region));
        let held = files::all(&mut |label, trial| table.add(&mut region, label, &trial));
        let most = [CALLERS, FRAMES];
        table.outcome.same(|| "the most callers and frames".to_string(), &[], most, held);
        table
    }

    /// Whether the answers are plain Rust's, each question refused small files and others, and no call needed more than its limit.
    fn judged(mut self, limits: Limits) -> Outcome {
        for (size, answers) in ["small", "large"].iter().zip(self.answers) {
            for (question, times) in answers.into_iter().enumerate() {
                let name = || format!("a {size} file or its memory refused by {question}");
                self.outcome.same(name, &[], true, times > 0);
            }
        }
        for row in &self.rows {
            for (column, (entry, cell)) in NAMES.iter().zip(row.cells).enumerate() {
                let Some(Measured { needs, .. }) = cell else { continue };
                let limit = limits.of(row.nodes, column >= LOGGED);
                let name = || format!("{entry}, {}, {} nodes, bytes of stack", row.name, row.nodes);
                let kept = format!("at most {limit}");
                let got = if needs <= limit { kept.clone() } else { needs.to_string() };
                self.outcome.same(name, &[], kept, got);
            }
        }
        self.outcome
    }
}

/// Prints the table, and the most of each entry point.
fn print(table: &Table) {
    println!("| file | nodes | {} |", NAMES.join(" | "));
    println!("|---|---:{}|", "|---:".repeat(NAMES.len()));
    let cell = |cell: Option<Measured>| cell.map_or("—".to_string(), |m| m.needs.to_string());
    for row in &table.rows {
        println!("| {} | {} | {} |", row.name, row.nodes, row.cells.map(cell).join(" | "));
    }
    for (size, is_small) in [("at most 256 nodes", true), ("any more nodes", false)] {
        let of_size = || table.rows.iter().filter(|row| row.is_small() == is_small);
        let most: [String; NAMES.len()] = std::array::from_fn(|column| {
            let all = of_size().filter_map(|row| row.cells[column]);
            cell(all.max_by_key(|measured| measured.needs))
        });
        println!("| **the most of files of {size}** | | {} |", most.join(" | "));
    }
    let (calls, (times, most)) = (table.calls, table.beyond);
    println!("\n{calls} calls; {times} touched what they did not write, at most {most} bytes more");
}

/// Prints what every call needs and gives whether the limits are kept, if there are any.
pub fn run(limits: Option<Limits>) -> bool {
    let table = Table::measured();
    print(&table);
    let limits = limits.unwrap_or(Limits { small: usize::MAX, any: usize::MAX });
    let outcome = table.judged(limits);
    outcome.print("stack of every entry point", "proved");
    outcome.failed == 0
}

/// Whether the library keeps its limits.
pub fn outcome() -> Outcome {
    let mut outcome = Table::measured().judged(LIMITS);
    outcome.same(|| "every call on a thread with a small stack".to_string(), &[], true, threads());
    outcome
}

/// Makes every call on a thread with the limit's stack and what the thread itself takes; a call that needs more ends the process.
pub fn on_threads(limits: Limits) -> bool {
    let mut outcome = Outcome::default();
    files::all(&mut |label, trial| {
        let limit = limits.of(label.nodes, trial.entry.column() >= LOGGED);
        let got = std::thread::scope(|scope| {
            let thread = std::thread::Builder::new().stack_size(limit + THREAD);
            thread.spawn_scoped(scope, || trial.answered()).map(|t| t.join().ok())
        });
        let got = got.ok().flatten();
        outcome.same(|| label.name.to_string(), trial.file, Some(trial.expected()), got);
    });
    outcome.print("calls on threads", "proved");
    outcome.failed == 0
}

/// Whether another process of this program makes every call on such threads and comes to its end.
fn threads() -> bool {
    let program = std::env::current_exe().map(std::process::Command::new);
    let status = program.and_then(|mut program| program.args(["stack", "threads"]).status());
    status.is_ok_and(|status| status.success())
}
