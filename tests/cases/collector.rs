//! Plans to a collector, and listings from the nodes to it: rows, refusals, and random tables against the model and
//! against the optimality check. The collector stands as a table's origin, and the senders as its wanted nodes.

use super::*;
use crate::compare::{self, plan_to_collector_filled, right_sizes, Sizes};
use crate::optimality::{check_listed_to_collector, Filled};
use crate::shapes::{self, SHAPES};

/// The quick ones.
pub const QUICK: &[Group] = &[
    Group { name: "collector: plans with their figures", run: rows },
    Group { name: "collector: refusals 1 to 8, and their order", run: refusals },
    Group { name: "collector: buffers of every wrong length", run: wrong_lengths },
    Group { name: "collector: several faults at once", run: several_faults },
    Group { name: "listing to the collector: rows, refusals and their order", run: listing_rows },
];

pub const GROUPS: &[Group] = &[
    Group { name: "collector: all tables of two and three nodes with few arcs", run: all_small },
    Group { name: "collector: links down, and the table without them", run: without_down },
    Group { name: "collector: random tables of 1 to 12 nodes, each reached node listed", run: small },
    Group { name: "collector: random tables of up to 80 nodes, each reached node listed", run: medium },
    Group { name: "collector: random tables of up to 1,024 nodes, each reached node listed", run: large },
    Group { name: "collector: every shape at the limits", run: shapes_at_limits },
    Group { name: "collector: long chains, and distances of more than 32 bits", run: long_chains },
];

/// T of 01 with the given collector and senders.
fn t(collector: u16, senders: &[u16]) -> Table {
    Table { origin: collector, ..example(4, senders) }
}

/// A table, and all that its plan to the collector gives.
type Row = (Table, Planned, Filled);

fn row(table: Table, planned: Planned, distances: &[u64], prices: &[u64], tree: &[u16], marks: &[u8]) -> Row {
    let (distances, prices) = (distances.to_vec(), prices.to_vec());
    (table, planned, Filled { distances, prices, tree: tree.to_vec(), marks: marks.to_vec() })
}

/// Nodes reached, horizon, then contractions, extensions and deletions, and scans.
fn planned(reached: u32, horizon: u64, (contractions, extensions, deletions): (u64, u64, u64), scans: u64) -> Planned {
    let iterations = contractions + extensions + deletions;
    Planned { reached, horizon, iterations, contractions, extensions, deletions, scans, ..Planned::default() }
}

fn rack() -> Vec<Row> {
    const NONE: u64 = NO_DISTANCE;
    const LONGEST: u64 = LONGEST_ARC as u64;
    let no_route = |place: u32, planned: Planned| Planned { number: 8, place, ..planned };
    let at_once = || planned(1, 0, (0, 0, 0), 0);
    let one_step = |length: u64| planned(2, length, (1, 1, 0), 1);
    let five = Table { n: 5, ..t(3, &[4, 0]) };
    let down = |position: usize| {
        let mut table = t(3, &[0, 1, 2]);
        table.lengths[position] = DOWN;
        table
    };
    let all_down = |senders: &[u16]| Table { lengths: vec![DOWN; 5], ..t(3, senders) };
    let two = |arcs: &[Arc]| Table::new(2, 1, arcs, &[0]);
    let (only_3, no_arcs) = (&[NONE, NONE, NONE, 0], &[NO_ARC; 4]);
    vec![
        row(t(3, &[0, 1, 2]), planned(4, 6, (6, 6, 0), 6), &[6, 4, 1, 0], &[0, 2, 5, 6],
            &[0, 2, 3, NO_ARC], &[3, 1, 3, 3, 1]),
        row(t(0, &[3]), no_route(0, at_once()), &[0, NONE, NONE, NONE], &[0; 4], no_arcs, &[1, 1, 0, 0, 0]),
        row(five, no_route(0, planned(4, 6, (6, 6, 3), 9)), &[6, 4, 1, 0, NONE], &[0, 2, 5, 6, 0],
            &[0, 2, 3, NO_ARC, NO_ARC], &[3, 1, 3, 3, 1]),
        row(two(&[(0, 1, 4), (0, 1, 4), (0, 1, 3)]), one_step(3), &[3, 0], &[0, 3], &[2, NO_ARC], &[1, 1, 3]),
        row(two(&[(0, 1, 4), (0, 1, 4)]), one_step(4), &[4, 0], &[0, 4], &[0, NO_ARC], &[3, 1]),
        // Loops, arcs out of the collector, and the longest arc.
        row(two(&[(0, 0, 1), (1, 1, 1), (1, 0, 1), (0, 1, LONGEST_ARC)]), one_step(LONGEST), &[LONGEST, 0], &[0, LONGEST],
            &[3, NO_ARC], &[1, 1, 1, 3]),
        row(two(&[(1, 0, 1)]), no_route(0, at_once()), &[NONE, 0], &[0, 0], &[NO_ARC; 2], &[1]),
        row(two(&[(0, 1, DOWN)]), no_route(0, at_once()), &[NONE, 0], &[0, 0], &[NO_ARC; 2], &[1]),
        row(down(2), planned(4, 9, (4, 4, 2), 6), &[6, 9, 1, 0], &[3, 0, 8, 9], &[1, 4, 3, NO_ARC], &[1, 3, 1, 3, 3]),
        row(all_down(&[3]), at_once(), only_3, &[0; 4], no_arcs, &[1; 5]),
        row(all_down(&[3, 0]), no_route(1, at_once()), only_3, &[0; 4], no_arcs, &[1; 5]),
        // No senders, and the collector as the only one.
        row(t(3, &[]), at_once(), only_3, &[0; 4], no_arcs, &[0, 0, 0, 2, 2]),
        row(t(3, &[3, 3]), at_once(), only_3, &[0; 4], no_arcs, &[0, 0, 0, 2, 2]),
        row(Table::new(1, 0, &[], &[]), at_once(), &[0], &[0], &[NO_ARC], &[]),
        row(Table::new(1, 0, &[(0, 0, 1)], &[0]), at_once(), &[0], &[0], &[NO_ARC], &[1]),
    ]
}

fn rows(entries: &dyn Entries, _: &mut Random) -> Tried {
    let rows = rack();
    for (table, expected, buffers) in &rows {
        plan_and_list(entries, table)?;
        let (answer, filled) = plan_to_collector_filled(entries, table);
        if answer != *expected || filled != *buffers {
            return Err(format!("{answer:?} {filled:?},\n  must be {expected:?} {buffers:?}: {table:?}"));
        }
    }
    Ok(rows.len())
}

/// A table, the sizes of its buffers where they are wrong, and the refusal's number and place.
type Refused = (Table, Option<Sizes>, (u32, u32));

fn refused_rows() -> Vec<Refused> {
    let to = |collector: u16, arcs: &[Arc], senders: &[u16]| Table::new(2, collector, arcs, senders);
    let of = |n: u32| Table { n, ..t(3, &[0]) };
    let short_tails = || Table { tails: vec![0; 4], ..t(3, &[0]) };
    let short_heads = || Table { heads: vec![1; 4], ..t(3, &[0]) };
    let short_lengths = || Table { lengths: vec![1; 4], ..t(3, &[0]) };
    let wrong_sizes = Some([4, 3, 4, 5]);
    vec![
        // As much as there may be, and one more.
        (wide_table(1_024, 6_000, 1_024), None, (0, 0)),
        (wide_table(1_025, 6_000, 1_024), None, (1, 0)),
        (wide_table(1_024, 6_001, 1_024), None, (2, 0)),
        (wide_table(1_024, 6_000, 1_025), None, (5, 1_024)),
        // The others.
        (of(0), None, (1, 0)),
        (of(u32::MAX), Some([4, 4, 4, 5]), (1, 0)),
        (short_tails(), None, (2, 0)),
        (short_heads(), None, (2, 0)),
        (short_lengths(), None, (2, 0)),
        (t(3, &[0]), Some([5, 4, 4, 5]), (3, 0)),
        (t(3, &[0]), wrong_sizes, (3, 0)),
        (t(3, &[0]), Some([4, 4, 0, 5]), (3, 0)),
        (t(3, &[0]), Some([4, 4, 4, 4]), (3, 0)),
        (t(4, &[0]), None, (4, 0)),
        (t(NO_ARC, &[0]), None, (4, 0)),
        (t(3, &[0, 4]), None, (5, 1)),
        (t(3, &[NO_ARC, 4]), None, (5, 0)),
        (t(3, &[9; 1_025]), None, (5, 1_024)),
        (to(1, &[(0, 1, 1), (2, 1, 1)], &[0]), None, (6, 1)),
        (to(1, &[(0, 1, 1), (0, 1, 1), (0, 2, 1)], &[0]), None, (6, 2)),
        (to(1, &[(0, 1, 1), (2, 1, DOWN)], &[0]), None, (6, 1)),
        (to(1, &[(0, NO_ARC, DOWN), (0, 1, 1)], &[0]), None, (6, 0)),
        (to(1, &[(0, 1, 1), (0, 1, 0)], &[0]), None, (7, 1)),
        (to(1, &[(0, 1, DOWN), (0, 1, 0)], &[0]), None, (7, 1)),
        (to(0, &[(0, 1, 1)], &[1]), None, (8, 0)),
        (to(1, &[(0, 1, DOWN), (1, 0, 1)], &[1, 0]), None, (8, 1)),
        (Table::new(3, 1, &[(0, 1, 1), (1, 2, 1)], &[0, 1, 0, 2, 2, 0]), None, (8, 3)),
        (t(1, &[0, 0, 1, 3, 2, 3]), None, (8, 3)),
        // Two faults and more.
        (Table { n: 0, ..short_heads() }, None, (1, 0)),
        (Table { origin: 4, ..short_tails() }, wrong_sizes, (2, 0)),
        (t(4, &[4]), wrong_sizes, (3, 0)),
        (t(4, &[4]), None, (4, 0)),
        (to(2, &[(2, 2, 0)], &[0]), None, (4, 0)),
        (to(1, &[(0, 2, 0)], &[0, 2]), None, (5, 1)),
        (to(1, &[(0, 2, 0)], &[0]), None, (6, 0)),
        (to(1, &[(2, 1, DOWN), (0, 1, 0)], &[0]), None, (6, 0)),
        (to(1, &[(0, 1, 0), (0, 2, 1)], &[0]), None, (7, 0)),
        (to(0, &[(0, 1, 1), (0, 2, 1)], &[1]), None, (6, 1)),
        (to(0, &[(0, 1, 0)], &[1]), None, (7, 0)),
    ]
}

fn refusals(entries: &dyn Entries, _: &mut Random) -> Tried {
    let rows = refused_rows();
    for (table, sizes, expected) in &rows {
        let sizes = sizes.unwrap_or(right_sizes(table));
        compare::plan_to_collector_sized(entries, table, sizes)?;
        let (mut distances, mut prices) = (vec![0; sizes[0]], vec![0; sizes[1]]);
        let (mut tree, mut marks) = (vec![0; sizes[2]], vec![0; sizes[3]]);
        let out = PlanBuffers { distances: &mut distances, prices: &mut prices, tree: &mut tree, marks: &mut marks };
        let answer = entries.plan_to_collector(table, out);
        if (answer.number, answer.place) != *expected {
            return Err(format!("{answer:?}, number and place must be {expected:?}: buffers {sizes:?}, {table:?}"));
        }
    }
    Ok(rows.len())
}

fn wrong_lengths(entries: &dyn Entries, _: &mut Random) -> Tried {
    let table = t(3, &[0, 1, 2]);
    let lengths = [0, 1, 3, 4, 5, 6, 100];
    for buffer in 0..4 {
        for length in lengths {
            let mut sizes = right_sizes(&table);
            sizes[buffer] = length;
            compare::plan_to_collector_sized(entries, &table, sizes)?;
        }
    }
    Ok(4 * lengths.len())
}

fn several_faults(entries: &dyn Entries, random: &mut Random) -> Tried {
    let tried = 20_000;
    for _ in 0..tried {
        let (table, sizes) = grounds::damaged_table(random);
        compare::plan_to_collector_sized(entries, &table.exchanged(), sizes)?;
    }
    Ok(tried)
}

/// A listing and the room for it; the number, and the nodes listed.
type ListingRow = (Listing, usize, u32, &'static [u16]);

fn rows_of_listing() -> Vec<ListingRow> {
    let Table { origin, tails, heads, .. } = t(3, &[]);
    let plan = || Listing { origin, node: 0, tails: tails.clone(), heads: heads.clone(), tree: vec![0, 2, 3, NO_ARC] };
    let from = |node: u16| Listing { node, ..plan() };
    let entry = |node: u16, arc: u16| {
        let mut listing = plan();
        listing.tree[node as usize] = arc;
        listing
    };
    let head = |position: usize, node: u16| {
        let mut listing = plan();
        listing.heads[position] = node;
        listing
    };
    let uneven = || Listing { heads: vec![1; 4], ..plan() };
    let there_and_back = Listing { origin: 2, node: 0, tails: vec![0, 1], heads: vec![1, 0], tree: vec![0, 1, NO_ARC] };
    let around = Listing { origin: 1, node: 0, tails: vec![0], heads: vec![0], tree: vec![0, NO_ARC] };
    vec![
        (from(0), 4, 0, &[0, 1, 2, 3]),
        (from(1), 4, 0, &[1, 2, 3]),
        (from(2), 4, 0, &[2, 3]),
        (from(3), 4, 0, &[3]),
        // Just enough room, and one too few.
        (from(0), 3, 13, &[]),
        (from(1), 3, 0, &[1, 2, 3]),
        (from(1), 2, 13, &[]),
        (from(3), 1, 0, &[3]),
        (from(3), 0, 13, &[]),
        // An entry that is not below m.
        (entry(0, 5), 4, 14, &[]),
        (entry(2, NO_ARC), 4, 14, &[]),
        // An arc whose tail is not the node: out of another one, and into it.
        (entry(0, 2), 4, 14, &[]),
        (entry(1, 0), 4, 14, &[]),
        (entry(2, 2), 4, 14, &[]),
        // An arc whose head is not below n.
        (head(0, 4), 4, 14, &[]),
        (head(3, NO_ARC), 4, 14, &[]),
        // More than n - 1 arcs.
        (there_and_back, 3, 14, &[]),
        (around, 2, 14, &[]),
        // What is not on the way, and the collector's own entry.
        (Listing { node: 1, ..entry(0, 5) }, 4, 0, &[1, 2, 3]),
        (head(1, NO_ARC), 4, 0, &[0, 1, 2, 3]),
        (entry(3, 0), 4, 0, &[0, 1, 2, 3]),
        (entry(3, 77), 4, 0, &[0, 1, 2, 3]),
        (Listing { node: 3, ..entry(3, 77) }, 4, 0, &[3]),
        // The others, and two faults at once.
        (Listing { tree: vec![], ..plan() }, 4, 1, &[]),
        (Listing { tree: vec![0; 1_025], ..plan() }, 4, 1, &[]),
        (uneven(), 4, 2, &[]),
        (Listing { tails: vec![0; 4], ..plan() }, 4, 2, &[]),
        (Listing { origin: 4, ..plan() }, 4, 4, &[]),
        (from(4), 4, 5, &[]),
        (Listing { tree: vec![], ..uneven() }, 4, 1, &[]),
        (Listing { origin: 4, ..uneven() }, 4, 2, &[]),
        (Listing { origin: 4, ..from(4) }, 4, 4, &[]),
        (Listing { node: 4, ..entry(0, 5) }, 0, 5, &[]),
        (entry(0, 5), 0, 14, &[]),
        (entry(2, 5), 1, 14, &[]),
    ]
}

fn listing_rows(entries: &dyn Entries, _: &mut Random) -> Tried {
    let rows = rows_of_listing();
    for (listing, room, number, nodes) in &rows {
        compare::list_to_collector(entries, listing, *room)?;
        let mut output = vec![0; *room];
        let answer = entries.list_to_collector(listing, &mut output);
        let expected = Listed { number: *number, place: 0, count: nodes.len() as u32 };
        if answer != expected || !output.starts_with(nodes) {
            return Err(format!("{answer:?} {output:?}, must be {expected:?} {nodes:?}: room {room}, {listing:?}"));
        }
    }
    Ok(rows.len())
}

/// The plan, and the listing from each node that it reached.
fn plan_and_list(entries: &dyn Entries, table: &Table) -> Tried {
    compare::plan_to_collector(entries, table)?;
    let (_, filled) = plan_to_collector_filled(entries, table);
    let Table { origin, tails, heads, .. } = table.clone();
    let mut listing = Listing { origin, node: 0, tails, heads, tree: filled.tree.clone() };
    let mut output = vec![0; table.n as usize];
    let mut tried = 1;
    for node in nodes(table).into_iter().filter(|&node| filled.distances[node as usize] != NO_DISTANCE) {
        listing.node = node;
        compare::list_to_collector(entries, &listing, output.len())?;
        let count = entries.list_to_collector(&listing, &mut output).count as usize;
        check_listed_to_collector(table, &filled, node, &output[..count]).map_err(|fault| format!("{fault}: {table:?}"))?;
        tried += 1;
    }
    Ok(tried)
}

fn all_small(entries: &dyn Entries, _: &mut Random) -> Tried {
    let mut tried = 0;
    for table in all_small_tables() {
        let last = table.n as u16 - 1;
        for senders in [vec![], vec![1], vec![1, 0, last]] {
            tried += plan_and_list(entries, &Table { wanted: senders, ..table.clone() })?;
        }
    }
    Ok(tried)
}

/// A random table; in most of them the arcs lead to the collector.
fn any_table(random: &mut Random, most_nodes: usize) -> Table {
    let shape = random.pick(&SHAPES);
    let n = random.from(1, most_nodes);
    let table = shapes::table(random, shape, n);
    if random.one_in(4) { table } else { table.exchanged() }
}

fn without_down(entries: &dyn Entries, random: &mut Random) -> Tried {
    let mut tried = 0;
    for _ in 0..1_000 {
        let mut table = any_table(random, 30);
        for share in [0, 10, 50, 100] {
            shapes::take_down(random, &mut table, share);
            tried += plan_and_list(entries, &table)?;
            plans::alike_without_down(|table| plan_to_collector_filled(entries, table), &table)?;
        }
    }
    Ok(tried)
}

fn random_tables(entries: &dyn Entries, random: &mut Random, count: usize, most_nodes: usize) -> Tried {
    (0..count).map(|_| plan_and_list(entries, &any_table(random, most_nodes))).sum()
}

fn small(entries: &dyn Entries, random: &mut Random) -> Tried {
    random_tables(entries, random, 50_000, 12)
}

fn medium(entries: &dyn Entries, random: &mut Random) -> Tried {
    random_tables(entries, random, 2_000, 80)
}

fn large(entries: &dyn Entries, random: &mut Random) -> Tried {
    random_tables(entries, random, 100, 1_024)
}

fn shapes_at_limits(entries: &dyn Entries, random: &mut Random) -> Tried {
    plans::tables_at_limits(random).iter().map(|table| plan_and_list(entries, &table.exchanged())).sum()
}

/// Chains whose last node is the collector: the first has 1,023 arcs to go.
fn long_chains(entries: &dyn Entries, _: &mut Random) -> Tried {
    let mut tried = 0;
    for length in [1, LONGEST_ARC] {
        let table = Table { origin: 1_023, ..chain(1_024, length) };
        tried += plan_and_list(entries, &table)?;
        let (answer, filled) = plan_to_collector_filled(entries, &table);
        let farthest = 1_023 * length as u64;
        if (answer.number, answer.horizon, filled.distances[0]) != (0, farthest, farthest) {
            return Err(format!("a chain of 1,024 nodes and lengths {length}: {answer:?}"));
        }
    }
    Ok(tried)
}
