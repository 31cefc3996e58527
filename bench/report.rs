//! The table of measurements as a page, and as lines while it is measured.

use crate::measure::{Keeping, Making, Stack, Times};
use std::fmt::Write;

pub struct Row {
    pub name: &'static str,
    pub wanted: &'static str,
    pub n: usize,
    pub m: usize,
    pub times: Times,
}

pub struct KeepingRow {
    pub name: &'static str,
    pub n: usize,
    pub m: usize,
    pub keeping: Keeping,
}

pub fn keeping_line(row: &KeepingRow) -> String {
    let KeepingRow { name, n, m, keeping: Keeping { nodes, keep, plan } } = row;
    format!("| {name} | {n} | {m} | {nodes} | {:.1} | {:.3} |", keep / 1e3, keep / plan)
}

/// Where it was measured, in words.
pub struct Machine {
    pub date: String,
    pub processor: String,
    pub cores: usize,
    pub compilers: String,
    /// What the library before is, where one was given.
    pub before: Option<String>,
}

const HEAD: [&str; 12] = [
    "table", "wanted", "n", "m", "iterations", "scans", "library, µs", "ns an iteration",
    "to the Rust auction", "to a heap Dijkstra", "to LEMON", "to Boost",
];

/// The table's head, with a column for the library before where one was given.
fn head(before: bool) -> String {
    let titles: Vec<&str> = HEAD.into_iter().chain(before.then_some("to the library before")).collect();
    format!("| {} |\n|---|---|{}\n", titles.join(" | "), "--:|".repeat(titles.len() - 2))
}

pub fn line(row: &Row) -> String {
    let Row { name, wanted, n, m, times } = row;
    let each = match times.iterations {
        0 => "-".to_string(),
        iterations => format!("{:.1}", times.library / iterations as f64),
    };
    let others = [times.auction, times.heap, times.lemon, times.boost].into_iter().chain(times.before);
    let ratios: Vec<String> = others.map(|other| ratio(times.library / other)).collect();
    let (iterations, scans) = (times.iterations, times.scans);
    let time = times.library / 1e3;
    format!("| {name} | {wanted} | {n} | {m} | {iterations} | {scans} | {time:.1} | {each} | {} |", ratios.join(" | "))
}

/// Two figures after the point for small ratios, none for large ones.
fn ratio(value: f64) -> String {
    if value < 10.0 { format!("{value:.2}") } else { format!("{value:.0}") }
}

/// The rows for which something holds, in words.
fn names(rows: &[Row], holds: impl Fn(&Times) -> bool) -> String {
    let found: Vec<&Row> = rows.iter().filter(|row| holds(&row.times)).collect();
    if found.is_empty() || found.len() == rows.len() {
        return if found.is_empty() { "none" } else { "every table here" }.to_string();
    }
    let names: Vec<String> = found.iter().map(|row| format!("{} ({})", row.name, row.wanted)).collect();
    names.join(", ")
}

pub fn making_line(making: &Making) -> String {
    let Making { arcs, library, plain } = making;
    format!("A load of 1,024 nodes, {arcs} arcs: {:.2} ms, {} of the time in ordinary Rust.", library / 1e6, ratio(library / plain))
}

pub fn page(machine: &Machine, rows: &[Row], keeping: &[KeepingRow], making: &Making, stack: &Stack, plot: &str) -> String {
    let Machine { date, processor, cores, compilers, before } = machine;
    let mut page = String::new();
    let mut add = |text: &str| page.write_str(text).expect("a string takes every text");
    add("# Performance\n\n");
    add(&format!("`bench/run` measures and writes this page. Measured {date} on {processor}, {cores} cores; {compilers}.\n\n"));
    add("Five planners work on the same tables in one process, by turns: the library through its C interface; ");
    add("the same auction in ordinary Rust (linked out-arc lists, arrays, remembered children, nothing allocated while it runs); ");
    add("Dijkstra's algorithm in Rust with the standard library's binary heap; LEMON's `Dijkstra` on a `SmartDigraph`; ");
    add("Boost's `dijkstra_shortest_paths` on an `adjacency_list`. Each time is processor time, the median of fifteen repetitions. ");
    add("The library, the Rust auction and the Rust Dijkstra start from the columns each time. ");
    add("LEMON and Boost get their graph made before the clock starts, which favours them. ");
    add("The wanted nodes' distances of all five, and the four counts and the buffers of the two auctions, ");
    add("are compared before the clock starts.\n\n");
    add("A ratio is the library's time divided by the other's: above 1 the library takes longer. ");
    add("\"One\" is the node in the middle when all are ordered by distance. ");
    add("The test load is that of `kestrelore_make_load` for seed 2026, chance 375 and largest length 1,000; ");
    add("some of its nodes have no walk from node 0, so a plan for all of them ends with number 8.\n\n");
    if let Some(what) = before {
        add(&format!("The library before is {what}; it is linked into the same process, and its iterations and buffers are compared too.\n\n"));
    }
    add(&head(before.is_some()));
    rows.iter().for_each(|row| add(&(line(row) + "\n")));
    add("\n## Where Dijkstra's algorithm is faster\n\n");
    add("The library promises to run the auction and reports its counts, so its iterations are not free to choose. ");
    add("Where paths are long the auction walks them up and down again for each node that it reaches; ");
    add("where a node has many children it looks at all of them in each iteration that scans. A heap does neither.\n\n");
    add(&format!("- A heap Dijkstra in Rust is faster on: {}.\n", names(rows, |t| t.heap < t.library)));
    add(&format!("- The library is faster than it on: {}.\n", names(rows, |t| t.heap >= t.library)));
    add(&format!("- LEMON, its graph ready, is faster on: {}.\n", names(rows, |t| t.lemon < t.library)));
    add(&format!("- Boost, its graph ready, is faster on: {}.\n", names(rows, |t| t.boost < t.library)));
    add("\n## Time against n\n\nAll nodes wanted; solid: the library, dashed: the heap Dijkstra.\n\n");
    add(&format!("![Time against the number of nodes]({plot})\n"));
    add("\n## Keeping a path\n\n");
    add("Keeping the path to the node in the middle beside itself, so that all of both lists is looked at: ");
    add("the arcs are linked once, then each step looks at the arcs out of its node. ");
    add("The last table has the most to look at, 6,000 loops at its one node, and lists of 1,024 nodes. ");
    add("The ratio is to the library's plan for the path's last node, measured by turns.\n\n");
    add("| table | n | m | nodes of the path | keeping, µs | to the plan |\n|---|--:|--:|--:|--:|--:|\n");
    keeping.iter().for_each(|row| add(&(keeping_line(row) + "\n")));
    add("\n## Making a load\n\n");
    add("The test load above, made by turns: two passes over the pairs, one that counts and one that puts. ");
    add(&format!("{}\n", making_line(making)));
    add("\n## Stack\n\nThe calls allocate nothing; all working memory is on the stack. ");
    add("Measured with 1,024 nodes and 6,000 arcs on a painted stack; the caller's frame, which holds the arguments, is included, ");
    add("and less than 256 bytes cannot be seen:\n\n| function | bytes |\n|---|--:|\n");
    add(&format!("| `kestrelore_plan_routes` | {} |\n", stack.plan));
    add(&format!("| `kestrelore_plan_to_collector` | {} |\n", stack.plan_to_collector));
    add(&format!("| `kestrelore_within_limit` | {} |\n", stack.within));
    add(&format!("| `kestrelore_list_path` | {} |\n", stack.list));
    add(&format!("| `kestrelore_list_to_collector` | {} |\n", stack.list_to_collector));
    add(&format!("| `kestrelore_keep_path` | {} |\n", stack.keep));
    add(&format!("| `kestrelore_read_link_file` | {} |\n", stack.read));
    add(&format!("| `kestrelore_write_link_file` | {} |\n", stack.write));
    add(&format!("| `kestrelore_make_load` | {} |\n", stack.make));
    page
}
