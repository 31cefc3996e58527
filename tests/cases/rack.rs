//! "Tables on the test rack", the printed example and the wrong turns, with 01's own figures; and what is within a limit.

use super::*;
use crate::compare::{self, plan_filled};

pub const GROUPS: &[Group] = &[
    Group { name: "the rack: tables with 01's figures", run: rows },
    Group { name: "the rack: limits of nodes and arcs", run: limits },
    Group { name: "the rack: within a limit, and the iterations made", run: asked },
    Group { name: "the printed example, byte for byte", run: printed_example },
];

/// What 01 says of a table, and how many scans 02's rule gives; empty lists are not said.
struct Row {
    table: Table,
    refusal: (u32, u32),
    counts: Counts,
    scans: u64,
    horizon: u64,
    prices: &'static [u64],
    tree: &'static [u16],
    marks: &'static [u8],
}

enum Counts {
    NotSaid,
    Sum(u64),
    /// Contractions, extensions, deletions.
    Each(u64, u64, u64),
}

fn rack() -> Vec<Row> {
    let row = |table, counts, scans, horizon| Row { table, refusal: (0, 0), counts, scans, horizon, prices: &[], tree: &[], marks: &[] };
    let (sum, each) = (Counts::Sum, Counts::Each);
    let one_arc = |length| Table::new(2, 0, &[(0, 1, length)], &[1]);
    let down = |position: usize, wanted: &[u16]| {
        let mut table = example(4, wanted);
        table.lengths[position] = DOWN;
        table
    };
    let all_down = Table { lengths: vec![DOWN; 5], ..example(4, &[0]) };
    let parallel = Table::new(2, 0, &[(0, 1, DOWN), (0, 1, 4)], &[1]);
    let exchanged = Table::new(4, 0, &[(0, 1, 2), (1, 2, 3), (0, 2, 5), (2, 3, 1), (1, 3, 9)], &[3]);
    let equal = |wanted: &[u16]| Table::new(3, 0, &[(0, 1, 2), (0, 2, 2)], wanted);
    let stolen = Table::new(5, 0, &[(0, 1, 1), (0, 2, 1), (1, 3, 1), (1, 4, 2), (2, 4, 1)], &[4]);
    let printed = Row { prices: &[6, 4, 1, 0], tree: &[NO_ARC, 0, 1, 3], ..row(example(4, &[3]), each(5, 4, 0), 5, 6) };
    vec![
        Row { marks: &[3, 3, 1, 3, 1], ..printed },
        Row { prices: &[2, 0, 0, 0], marks: &[3, 2, 1, 0, 2], ..row(example(4, &[1]), sum(2), 1, 2) },
        Row { refusal: (8, 0), ..row(example(5, &[4]), each(6, 5, 3), 9, 6) },
        Row { marks: &[2, 2, 0, 0, 0], ..row(example(4, &[]), sum(0), 0, 0) },
        Row { marks: &[2, 2, 0, 0, 0], ..row(example(4, &[0]), sum(0), 0, 0) },
        row(Table::new(1, 0, &[], &[0]), sum(0), 0, 0),
        Row { marks: &[1], ..row(Table::new(1, 0, &[(0, 0, 1)], &[0]), sum(0), 0, 0) },
        Row { tree: &[NO_ARC, 0], ..row(Table::new(2, 0, &[(0, 1, 4), (0, 1, 4)], &[1]), sum(2), 1, 4) },
        Row { marks: &[3], ..row(one_arc(LONGEST_ARC), sum(2), 1, LONGEST_ARC as u64) },
        Row { refusal: (8, 0), prices: &[0, 0], tree: &[NO_ARC, NO_ARC], marks: &[1], ..row(one_arc(DOWN), sum(0), 0, 0) },
        Row { refusal: (7, 0), ..row(one_arc(0), sum(0), 0, 0) },
        Row { tree: &[NO_ARC, 0, 1, 3], ..row(exchanged, Counts::NotSaid, 6, 6) },
        Row { tree: &[NO_ARC, 0, 2, 3], marks: &[3, 1, 3, 3, 1], ..row(down(1, &[3]), each(6, 6, 0), 6, 6) },
        Row { marks: &[3, 2, 1, 1, 2], ..row(down(3, &[1]), sum(2), 1, 2) },
        Row { marks: &[1, 1, 1, 1, 1], ..row(all_down, sum(0), 0, 0) },
        Row { tree: &[NO_ARC, 1], marks: &[1, 3], ..row(parallel, sum(2), 1, 4) },
        row(equal(&[1]), each(1, 1, 0), 1, 2),
        row(equal(&[1, 2]), each(1, 2, 1), 3, 2),
        Row { tree: &[NO_ARC, 0, 1, 2, 4], ..row(stolen, each(4, 6, 2), 9, 2) },
    ]
}

fn rows(entries: &dyn Entries, _: &mut Random) -> Tried {
    let rows = rack();
    for row in &rows {
        compare::plan(entries, &row.table)?;
        let (plan, filled) = plan_filled(entries, &row.table);
        let counted = match row.counts {
            Counts::NotSaid => true,
            Counts::Sum(sum) => plan.iterations == sum,
            Counts::Each(c, e, d) => (plan.contractions, plan.extensions, plan.deletions) == (c, e, d),
        };
        let holds = (plan.number, plan.place) == row.refusal
            && counted
            && plan.scans == row.scans
            && plan.horizon == row.horizon
            && (row.prices.is_empty() || filled.prices == row.prices)
            && (row.tree.is_empty() || filled.tree == row.tree)
            && (row.marks.is_empty() || filled.marks == row.marks);
        if !holds {
            return Err(format!("not the rack's figures: {plan:?} of {:?}", row.table));
        }
    }
    Ok(rows.len())
}

fn limits(entries: &dyn Entries, _: &mut Random) -> Tried {
    let full = |n: u32, m: usize| wide_table(n, m, 3);
    let cases = [(full(1_024, 6_000), 0), (full(1_025, 6_000), 1), (full(1_024, 6_001), 2)];
    for (table, number) in &cases {
        compare::plan(entries, table)?;
        compare::within(entries, table, 1_023, u64::MAX)?;
        let (plan, asked) = (plan_filled(entries, table).0.number, entries.within(table, 1_023, u64::MAX).number);
        if [plan, asked] != [*number; 2] {
            return Err(format!("n {}, {} arcs: numbers {plan} and {asked}", table.n, table.tails.len()));
        }
    }
    Ok(cases.len())
}

/// A table, a node and a limit; whether it is within, and the iterations made.
type Asked = (Table, u16, u64, (u32, u64));

fn asked_rows() -> Vec<Asked> {
    let most = u64::MAX;
    let t = |n: u32| example(n, &[]);
    let t_down = Table { lengths: vec![2, DOWN, 3, 1, 9], ..t(4) };
    let one_down = Table::new(2, 0, &[(0, 1, DOWN)], &[]);
    let equal = Table::new(3, 0, &[(0, 1, 2), (0, 2, 2)], &[]);
    let (longest, long) = (LONGEST_ARC as u64, || chain(3, LONGEST_ARC));
    vec![
        (t(4), 3, 7, (1, 9)),
        (t(4), 3, 6, (1, 9)),
        (t(4), 3, 5, (0, 7)),
        (t(4), 3, 0, (0, 1)),
        (t(4), 2, 5, (1, 5)),
        (t(4), 2, 4, (0, 4)),
        (t(4), 1, 2, (1, 2)),
        (t(4), 1, 1, (0, 1)),
        (t(4), 0, 0, (1, 0)),
        (t(5), 4, 5, (0, 7)),
        (t(5), 4, 10, (0, 12)),
        (t(5), 4, 11, (0, 14)),
        // The full runs.
        (t(4), 0, most, (1, 0)),
        (t(4), 1, most, (1, 2)),
        (t(4), 2, most, (1, 5)),
        (t(4), 3, most, (1, 9)),
        (t(5), 4, most, (0, 14)),
        (one_down, 1, most, (0, 0)),
        (t_down.clone(), 3, 5, (0, 9)),
        (t_down, 3, 6, (1, 12)),
        (equal.clone(), 2, 1, (0, 1)),
        (equal, 2, 2, (1, 4)),
        (Table::new(2, 0, &[], &[]), 1, most, (0, 0)),
        (Table::new(1, 0, &[(0, 0, 1)], &[]), 0, 0, (1, 0)),
        (long(), 2, longest - 1, (0, 1)),
        (long(), 2, 1 << 32, (0, 4)),
        (long(), 2, 2 * longest - 1, (0, 4)),
        (long(), 2, 2 * longest, (1, 6)),
    ]
}

fn asked(entries: &dyn Entries, _: &mut Random) -> Tried {
    let rows = asked_rows();
    for (table, node, limit, (within, iterations)) in &rows {
        compare::within(entries, table, *node, *limit)?;
        let answer = entries.within(table, *node, *limit);
        if answer != (Within { within: *within, iterations: *iterations, ..Within::default() }) {
            return Err(format!("not the rack's figures: {answer:?} of node {node}, limit {limit}, {table:?}"));
        }
    }
    Ok(rows.len())
}

const EXAMPLE_SHEET: &str = "\
reached 4 horizon 6 iterations 9
contractions 5 extensions 4 deletions 0
node 0 distance 0 price 6 arc -
node 1 distance 2 price 4 arc 0
node 2 distance 5 price 1 arc 1
node 3 distance 6 price 0 arc 3
path 3: 0 2 3
marks 0 2 0 3
";

fn printed_example(entries: &dyn Entries, _: &mut Random) -> Tried {
    let printed = entries.print(EXAMPLE_FILE)?;
    if printed != EXAMPLE_SHEET {
        return Err(format!("printed {printed:?}"));
    }
    Ok(1)
}
