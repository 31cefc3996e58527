//! The cases, in groups. Each group takes a product and gives how many cases it tried.

pub mod beside;
pub mod collector;
pub mod files;
pub mod grounds;
pub mod keeping;
pub mod listings;
pub mod load;
pub mod plans;
pub mod program;
pub mod rack;
pub mod walks;
pub mod within;

use crate::random::Random;
use crate::rules::*;

pub type Tried = Result<usize, String>;

#[derive(Clone)]
pub struct Group {
    pub name: &'static str,
    pub run: fn(&dyn Entries, &mut Random) -> Tried,
}

/// The quick ones first, since a faulty model goes through them until one notices its fault.
pub fn groups() -> Vec<Group> {
    let quick = [keeping::GROUPS, load::QUICK, rack::GROUPS, grounds::GROUPS, listings::GROUPS, collector::QUICK].concat();
    let plans = [plans::GROUPS, within::GROUPS, collector::GROUPS, walks::GROUPS, beside::GROUPS].concat();
    [&quick, program::GROUPS, files::GROUPS, &plans, load::GROUPS].concat()
}

/// T of 01, with the given number of nodes and wanted list.
pub fn example(n: u32, wanted: &[u16]) -> Table {
    Table::new(n, 0, &[(0, 1, 2), (0, 2, 5), (1, 2, 3), (2, 3, 1), (1, 3, 9)], wanted)
}

/// The nodes of a table, ascending.
pub fn nodes(table: &Table) -> Vec<u16> {
    (0..table.n as u16).collect()
}

/// The example file of 01.
pub const EXAMPLE_FILE: &[u8] = &[
    0x05, 4, 0, 1, 0, 3, 0,
    0x07, 0, 0, 1, 0, 2, 0, 0, 0,
    0x04, 5, 0, 0, 0,
    0x07, 1, 0, 2, 0, 3, 0, 0, 0,
    0x05, 2, 0, 1, 0, 0, 0,
    0x07, 1, 0, 3, 0, 9, 0, 0, 0,
];

/// A chain from node 0, every node wanted.
pub fn chain(n: u32, length: u32) -> Table {
    let arcs: Vec<Arc> = (1..n as u16).map(|node| (node - 1, node, length)).collect();
    Table::new(n, 0, &arcs, &(0..n as u16).collect::<Vec<u16>>())
}

/// Every table of two and three nodes with few arcs, of lengths 1 and 2 or down, and nothing wanted.
pub fn all_small_tables() -> impl Iterator<Item = Table> {
    let sizes = [(2, 4), (3, 3)].into_iter().flat_map(|(n, most_arcs)| (0..=most_arcs).map(move |m| (n, m)));
    sizes.flat_map(|(n, m)| all_tables(n, m))
}

fn all_tables(n: usize, m: u32) -> impl Iterator<Item = Table> {
    let lengths = [1, 2, DOWN];
    let choices = n * n * lengths.len();
    let arc = move |choice: usize| ((choice / 3 / n) as u16, (choice / 3 % n) as u16, lengths[choice % 3]);
    (0..choices.pow(m)).map(move |number| {
        let arcs: Vec<Arc> = (0..m).map(|position| arc(number / choices.pow(position) % choices)).collect();
        Table::new(n as u32, 0, &arcs, &[])
    })
}

/// A table of that many arcs whose fields all have to be written.
pub fn wide_table(n: u32, arcs: usize, wanted: usize) -> Table {
    let node = |place: usize| (place * 7 % n as usize) as u16;
    let arcs: Vec<Arc> = (0..arcs).map(|p| (node(p), node(p + 3), p as u32 + 1)).collect();
    let wanted: Vec<u16> = (0..wanted).map(|index| node(index + 1)).collect();
    Table::new(n, 1, &arcs, &wanted)
}
