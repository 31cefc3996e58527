//! Measures the library beside its peers and writes a page and a plot.
//!
//!     kestrelore-bench PAGE PLOT DATE COMPILERS [BEFORE]
//!
//! BEFORE says what the library before is, where one is linked.

#[path = "../tests/abi.rs"]
mod abi;
mod auction;
mod dijkstra;
mod library;
mod load;
mod measure;
mod plot;
mod report;
mod tables;

use plot::Curve;
use report::{KeepingRow, Machine, Row};
use std::path::Path;
use tables::{Table, FAMILIES};

const PLOTTED: [(&str, &str, fn(usize) -> Table); 3] =
    [("sparse", "#1b6ca8", tables::sparse), ("grid", "#3a8f3a", tables::grid), ("chain", "#c0392b", tables::chain)];

const PLOTTED_NODES: [usize; 7] = [16, 32, 64, 128, 256, 512, 1_024];

/// The processor as the system names it.
fn processor() -> String {
    let text = std::fs::read_to_string("/proc/cpuinfo").unwrap_or_default();
    let name = text.lines().find(|line| line.starts_with("model name")).and_then(|line| line.split_once(':'));
    name.map_or("a processor without a name".to_string(), |(_, name)| name.trim().to_string())
}

fn rows() -> Vec<Row> {
    let mut rows = Vec::new();
    for family in &FAMILIES {
        let table = (family.make)(family.n);
        for (wanted, target) in [("all", None), ("one", Some(measure::middle_node(&table)))] {
            let times = measure::times(&table, target);
            let row = Row { name: family.name, wanted, n: table.n, m: table.tails.len(), times };
            println!("{}", report::line(&row));
            rows.push(row);
        }
    }
    rows
}

/// Keeping the path to the node in the middle, and the longest list on the table where a step looks at the most arcs.
fn keeping_rows() -> Vec<KeepingRow> {
    let mut rows = Vec::new();
    let mut add = |name, table: &Table, path: &[u16]| {
        let row = KeepingRow { name, n: table.n, m: table.tails.len(), keeping: measure::keeping(table, path) };
        println!("{}", report::keeping_line(&row));
        rows.push(row);
    };
    for family in &FAMILIES {
        let table = (family.make)(family.n);
        add(family.name, &table, &measure::path_to(&table, measure::middle_node(&table)));
    }
    add("loops", &tables::loops(), &[0; abi::MOST_NODES]);
    rows
}

/// For each plotted family the library's curve and the heap Dijkstra's.
fn curves() -> Vec<Curve> {
    let mut curves = Vec::new();
    for (name, color, make) in PLOTTED {
        let times: Vec<_> = PLOTTED_NODES.iter().map(|&n| (n as f64, measure::times(&make(n), None))).collect();
        let library = times.iter().map(|(n, times)| (*n, times.library)).collect();
        let heap = times.iter().map(|(n, times)| (*n, times.heap)).collect();
        curves.push(Curve { name: format!("{name}, library"), color, dashed: false, points: library });
        curves.push(Curve { name: format!("{name}, Dijkstra"), color, dashed: true, points: heap });
    }
    curves
}

fn main() -> std::io::Result<()> {
    let words: Vec<String> = std::env::args().collect();
    let (page, plot, date, compilers, before) = match &words[..] {
        [_, page, plot, date, compilers] => (page, plot, date, compilers, None),
        [_, page, plot, date, compilers, before] => (page, plot, date, compilers, Some(before.clone())),
        _ => {
            eprintln!("usage: kestrelore-bench PAGE PLOT DATE COMPILERS [BEFORE]");
            std::process::exit(2);
        }
    };
    let machine = Machine {
        date: date.clone(),
        processor: processor(),
        cores: std::thread::available_parallelism()?.get(),
        compilers: compilers.clone(),
        before,
    };
    let rows = rows();
    let keeping = keeping_rows();
    let making = measure::making(1_024);
    println!("{}", report::making_line(&making));
    let stack = measure::stack(&tables::sparse(1_024));
    let measure::Stack { plan, plan_to_collector, within, list, list_to_collector, keep, read, write, make } = stack;
    println!("stack: plan {plan}, to a collector {plan_to_collector}, within {within} bytes");
    println!("stack: list {list}, to a collector {list_to_collector}, keep {keep} bytes");
    println!("stack: read {read}, write {write}, make {make} bytes");
    let plot_name = Path::new(plot).file_name().unwrap_or_default().to_string_lossy();
    std::fs::write(plot, plot::svg(&curves()))?;
    std::fs::write(page, report::page(&machine, &rows, &keeping, &making, &stack, &plot_name))
}
