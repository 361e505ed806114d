//! Times the proved check and the machine beside the fast plain ones and prints Markdown tables.
//!
//! Without the feature `proved` the reference stands where the proved check would.

#[cfg(feature = "copies")]
mod alignments;
mod cases;
mod count;
mod machine;

use bench::timing::{ask, checks, judged, medians_of_all, Call};
use generators::{late, shapes};

// Bytes before the program's functions, none unless PANELRUE_SHIFT asks for some at the build: where code lies changes its time.
#[cfg(all(target_arch = "x86_64", target_os = "linux"))]
std::arch::global_asm!(
    ".pushsection .text.panelrue_shift, \"axR\", @progbits",
    concat!(".skip ", env!("PANELRUE_SHIFT")),
    ".popsection",
);

/// The numbers of nodes timed.
const SIZES: [usize; 6] = [128, 256, 512, 1024, 2048, 4096];

/// One file to time.
struct Entry {
    shape: &'static str,
    size: usize,
    nodes: usize,
    /// Whether the check reads the nodes at all.
    reads_nodes: bool,
    file: Vec<u8>,
}

/// One row of the table.
struct Row {
    entry: Entry,
    slow: f64,
    plain: f64,
}

/// All shapes at all sizes.
fn entries() -> Vec<Entry> {
    let mut all = Vec::new();
    for (shape, make) in shapes::ALL {
        for size in SIZES {
            let file = make(size);
            let nodes = file.nodes.len();
            all.push(Entry { shape, size, nodes, reads_nodes: true, file: file.bytes() });
        }
    }
    for (i, (shape, make)) in late::ALL.into_iter().enumerate() {
        for size in SIZES {
            let reads_nodes = i >= 6;
            all.push(Entry { shape, size, nodes: size, reads_nodes, file: make(size) });
        }
    }
    all
}

/// A number with its thousands apart.
fn grouped(number: f64) -> String {
    let digits = format!("{number:.0}");
    let place = |i: usize| i > 0 && (digits.len() - i).is_multiple_of(3);
    let apart =
        digits.char_indices().map(|(i, c)| if place(i) { format!(",{c}") } else { c.to_string() });
    apart.collect()
}

/// Prints one row for each shape: the judged side's time at each size, and the plain one's at the greatest.
fn print_shapes(title: &str, rows: &[Row]) {
    let sizes: Vec<String> = SIZES.iter().map(|&size| grouped(size as f64)).collect();
    let last = &sizes[SIZES.len() - 1];
    println!(
        "| {title} | {} | plain, {last} | ratio, {} | ratio, {last} |",
        sizes.join(" | "),
        sizes[0]
    );
    println!("|---{}|", "|---:".repeat(SIZES.len() + 3));
    for shape in rows.chunks_exact(SIZES.len()) {
        let times: Vec<String> = shape.iter().map(|row| grouped(row.slow)).collect();
        let ends = [&shape[0], &shape[SIZES.len() - 1]];
        let [first, last] = ends.map(|row| row.slow / row.plain);
        let plain = grouped(ends[1].plain);
        println!(
            "| {} | {} | {plain} | {first:.2} | {last:.2} |",
            ends[0].entry.shape,
            times.join(" | ")
        );
    }
    println!();
}

/// Prints the ratios' range and the greatest time for each size, over the files whose nodes are read.
fn print_summary(name: &str, rows: &[Row]) {
    println!("| size | least ratio | median ratio | greatest ratio | slowest {name} ns/file | its shape |");
    println!("|---:|---:|---:|---:|---:|---|");
    for size in SIZES {
        let own: Vec<&Row> =
            rows.iter().filter(|row| row.entry.size == size && row.entry.reads_nodes).collect();
        let mut ratios: Vec<f64> = own.iter().map(|row| row.slow / row.plain).collect();
        ratios.sort_by(f64::total_cmp);
        let slowest = own.iter().max_by(|a, b| a.slow.total_cmp(&b.slow));
        if let (Some(least), Some(greatest), Some(slowest)) =
            (ratios.first(), ratios.last(), slowest)
        {
            println!(
                "| {} | {least:.2} | {:.2} | {greatest:.2} | {} | {} |",
                grouped(size as f64),
                ratios[ratios.len() / 2],
                grouped(slowest.slow),
                slowest.entry.shape
            );
        }
    }
}

/// Prints by how much the time of a file grows from the fewest nodes to the most, for each time the nodes do.
fn print_growth(name: &str, rows: &[Row]) {
    let growth = |time: fn(&Row) -> f64| {
        let shapes = rows.chunks_exact(SIZES.len()).filter(|shape| shape[0].entry.reads_nodes);
        let grown = shapes.map(|shape| {
            let (first, last) = (&shape[0], &shape[SIZES.len() - 1]);
            let nodes = last.entry.nodes as f64 / first.entry.nodes as f64;
            time(last) / time(first) / nodes
        });
        let mut all: Vec<f64> = grown.collect();
        all.sort_by(f64::total_cmp);
        [all[0], all[all.len() / 2], all[all.len() - 1]]
    };
    println!("\n| growth of the time by growth of the nodes, over all shapes | least | median | greatest |");
    println!("|---|---:|---:|---:|");
    let sides: [(&str, fn(&Row) -> f64); 2] = [(name, |row| row.slow), ("plain", |row| row.plain)];
    for (side, time) in sides {
        let [least, median, greatest] = growth(time);
        println!("| {side} | {least:.2} | {median:.2} | {greatest:.2} |");
    }
}

/// Times every file on both sides, all sizes of a shape in turn.
fn timed(entries: Vec<Entry>) -> Vec<Row> {
    let sides = checks();
    let mut times = Vec::new();
    for shape in entries.chunks(SIZES.len()) {
        let calls = shape.iter().flat_map(|entry| {
            assert_eq!(sides[0](&entry.file), sides[1](&entry.file), "{}", entry.shape);
            sides.map(|check| Box::new(move || ask(check, &entry.file)) as Call)
        });
        times.extend(medians_of_all(calls));
    }
    let pairs = times.chunks_exact(2);
    entries
        .into_iter()
        .zip(pairs)
        .map(|(entry, t)| Row { entry, slow: t[0], plain: t[1] })
        .collect()
}

/// Prints all tables.
fn run() {
    let name = judged().name;
    if name != "proved" {
        eprintln!("the proved library is not linked (feature `machine`)");
    }
    cases::print(name);
    let rows = timed(entries());
    let (accepted, refused) = rows.split_at(shapes::ALL.len() * SIZES.len());
    print_shapes(&format!("accepted, {name} ns/file by nodes"), accepted);
    print_shapes(&format!("refused, {name} ns/file by nodes"), refused);
    print_summary(name, &rows);
    print_growth(name, &rows);
    machine::run();
}

/// What the program can be asked.
const USAGE: &str = "\
bench                         prints the tables of times
bench cases                   prints how often each case is to be counted, its nodes and its name
bench count SIDE CASE TIMES   does a case so many times on `proved` or `plain`
bench alignments DEPTH        prints the times of copies of the library, so many calls further down the stack";

/// Does what the words ask.
fn asked() -> Result<(), String> {
    let words: Vec<String> = std::env::args().skip(1).collect();
    let words: Vec<&str> = words.iter().map(String::as_str).collect();
    match words[..] {
        [] => run(),
        ["cases"] => count::list(),
        #[cfg(feature = "copies")]
        ["alignments", depth] => return alignments::run(depth),
        ["count", side, case, times] => return count::run(side, case, times),
        _ => return Err(USAGE.to_string()),
    }
    Ok(())
}

/// Runs on a thread whose stack holds the deepest trees.
fn main() -> std::process::ExitCode {
    let thread = std::thread::Builder::new().stack_size(64 << 20).spawn(asked);
    let done = match thread.map(|t| t.join()) {
        Ok(Ok(Err(reason))) => {
            eprintln!("{reason}");
            false
        }
        other => matches!(other, Ok(Ok(Ok(())))),
    };
    std::process::ExitCode::from(u8::from(!done))
}
