//! Keeping the path in use beside a fresh one: paths with their answers, refusals and their order, the limits.

use super::*;
use crate::compare;

pub const GROUPS: &[Group] = &[
    Group { name: "keeping: paths with their answers", run: rows },
    Group { name: "keeping: refusals 1, 2, 6, 7 and 15, and their order", run: refusals },
    Group { name: "keeping: totals of more than 32 bits", run: great_totals },
    Group { name: "keeping: lists of 1,023, 1,024, 1,025 and more nodes", run: long_lists },
];

fn stands(count: usize) -> Kept {
    Kept { standing: 1, count: count as u32, ..Kept::default() }
}

fn moves(count: usize) -> Kept {
    Kept { count: count as u32, ..Kept::default() }
}

fn refused(number: u32, place: u32) -> Kept {
    Kept { number, place, ..Kept::default() }
}

fn expect(entries: &dyn Entries, table: &Table, standing: &[u16], fresh: &[u16], expected: Kept) -> Result<(), String> {
    let answer = compare::keep(entries, table, standing, fresh)?;
    let words = || format!("{answer:?}, must be {expected:?}: standing {standing:?}, fresh {fresh:?}, {table:?}");
    if answer == expected { Ok(()) } else { Err(words()) }
}

/// A table, the standing path and the fresh one, and what is answered.
type Row = (Table, &'static [u16], &'static [u16], Kept);

fn rows_of_ends() -> Vec<Row> {
    let t = || example(4, &[]);
    vec![
        // Another start, another end, both, and the two exchanged.
        (t(), &[1, 2, 3], &[0, 2, 3], moves(3)),
        (t(), &[2, 3], &[0, 2, 3], moves(3)),
        (t(), &[0, 2], &[0, 2, 3], moves(3)),
        (t(), &[0, 1, 2], &[0, 2, 3], moves(3)),
        (t(), &[1, 2], &[0, 2, 3], moves(3)),
        (t(), &[3, 2, 0], &[0, 2, 3], moves(3)),
        (t(), &[], &[0, 2, 3], moves(3)),
        (t(), &[0], &[0, 2, 3], moves(3)),
        (t(), &[3], &[0, 2, 3], moves(3)),
        // One node.
        (t(), &[0], &[0], stands(1)),
        (t(), &[3], &[3], stands(1)),
        (t(), &[1], &[0], moves(1)),
        (t(), &[], &[0], moves(1)),
        (t(), &[0, 2], &[0], moves(1)),
        (t(), &[2, 0], &[0], moves(1)),
        (Table::new(1, 0, &[], &[]), &[0], &[0], stands(1)),
        (Table::new(1_024, 0, &[], &[]), &[1_023], &[1_023], stands(1)),
        (Table::new(1_024, 0, &[], &[]), &[1_022], &[1_023], moves(1)),
    ]
}

fn rows_of_walks() -> Vec<Row> {
    let t = || example(4, &[]);
    let down = |position: usize| {
        let mut table = t();
        table.lengths[position] = DOWN;
        table
    };
    let both_ways = || Table::new(2, 0, &[(0, 1, 2), (1, 0, 3)], &[]);
    let sheet = |arcs: usize| Table::new(3, 0, &[(1, 2, 3), (0, 2, 10), (0, 1, 8), (0, 1, 7)][..arcs], &[]);
    vec![
        // The release sheet's: before the short cut is added, and then.
        (sheet(3), &[0, 1, 2], &[0, 2], moves(2)),
        (sheet(4), &[0, 2], &[0, 1, 2], stands(2)),
        // Equal, shorter, longer, and the same list.
        (t(), &[0, 2, 3], &[0, 1, 2, 3], stands(3)),
        (t(), &[0, 1, 2, 3], &[0, 2, 3], stands(4)),
        (t(), &[0, 2, 3], &[0, 1, 3], stands(3)),
        (t(), &[0, 1, 2, 3], &[0, 1, 3], stands(4)),
        (t(), &[0, 1, 3], &[0, 2, 3], moves(3)),
        (t(), &[0, 1, 3], &[0, 1, 2, 3], moves(4)),
        (t(), &[0, 1, 3], &[0, 1, 3], stands(3)),
        // A standing path that is no walk: no arc, one that leads back, one that is down, no such node.
        (t(), &[0, 3], &[0, 2, 3], moves(3)),
        (t(), &[0, 2, 1, 3], &[0, 2, 3], moves(3)),
        (t(), &[0, 2, 2, 3], &[0, 2, 3], moves(3)),
        (down(1), &[0, 2, 3], &[0, 1, 2, 3], moves(4)),
        (down(3), &[0, 2, 3], &[0, 1, 3], moves(3)),
        (t(), &[0, 4, 3], &[0, 2, 3], moves(3)),
        (t(), &[0, NO_ARC, 3], &[0, 2, 3], moves(3)),
        (t(), &[4], &[0], moves(1)),
        (t(), &[NO_ARC], &[0], moves(1)),
        // What is down elsewhere.
        (down(2), &[0, 2, 3], &[0, 1, 3], stands(3)),
        (down(4), &[0, 1, 2, 3], &[0, 2, 3], stands(4)),
        // A node more than once.
        (both_ways(), &[0, 1], &[0, 1, 0, 1], stands(2)),
        (both_ways(), &[0, 1, 0, 1], &[0, 1], moves(2)),
        (both_ways(), &[0], &[0, 1, 0], stands(1)),
        (both_ways(), &[0, 1, 0], &[0], moves(1)),
        (both_ways(), &[1, 0, 1], &[0, 1], moves(2)),
    ]
}

fn rows_of_parallel_arcs() -> Vec<Row> {
    // From 0 to 1 by the shortest of three, of length 3; by way of 2 as long as is said.
    let three = |by_way: u32| Table::new(3, 0, &[(0, 1, 5), (0, 1, 3), (0, 1, 4), (0, 2, 1), (2, 1, by_way - 1)], &[]);
    let two = |first: u32, second: u32| Table::new(3, 0, &[(0, 1, first), (0, 1, second), (0, 2, 2), (2, 1, 2)], &[]);
    let looped = |length: u32| Table::new(2, 0, &[(0, 0, length), (0, 1, 1)], &[]);
    vec![
        (three(3), &[0, 1], &[0, 2, 1], stands(2)),
        (three(3), &[0, 2, 1], &[0, 1], stands(3)),
        (three(4), &[0, 2, 1], &[0, 1], moves(2)),
        (three(4), &[0, 1], &[0, 2, 1], stands(2)),
        (three(2), &[0, 1], &[0, 2, 1], moves(3)),
        (two(DOWN, 4), &[0, 1], &[0, 2, 1], stands(2)),
        (two(4, DOWN), &[0, 1], &[0, 2, 1], stands(2)),
        (two(DOWN, 5), &[0, 2, 1], &[0, 1], stands(3)),
        (two(5, DOWN), &[0, 1], &[0, 2, 1], moves(3)),
        (two(DOWN, DOWN), &[0, 1], &[0, 2, 1], moves(3)),
        (two(DOWN, DOWN), &[0, 2, 1], &[0, 1], refused(15, 0)),
        // A repeated node needs a loop, and its length counts.
        (looped(1), &[0, 0], &[0, 0], stands(2)),
        (looped(1), &[0], &[0, 0], stands(1)),
        (looped(1), &[0, 0], &[0], moves(1)),
        (looped(1), &[0, 0, 1], &[0, 1], moves(2)),
        (looped(1), &[0, 1], &[0, 0, 1], stands(2)),
        (looped(1), &[0, 0, 0, 1], &[0, 0, 1], moves(3)),
        (looped(DOWN), &[0, 1], &[0, 0, 1], refused(15, 0)),
        (looped(DOWN), &[0, 0, 1], &[0, 1], moves(2)),
        (looped(1), &[0, 1], &[0, 1, 1], refused(15, 0)),
        (looped(1), &[0, 1, 1], &[0, 1], moves(2)),
    ]
}

fn rows(entries: &dyn Entries, _: &mut Random) -> Tried {
    let rows = [rows_of_ends(), rows_of_walks(), rows_of_parallel_arcs()].concat();
    for (table, standing, fresh, expected) in &rows {
        expect(entries, table, standing, fresh, *expected)?;
        // One list lent as both.
        let twice = entries.keep(table.n, table.columns(), fresh, fresh);
        if expected.number == 0 && twice != stands(fresh.len()) {
            return Err(format!("{twice:?}: standing and fresh the same list {fresh:?}, {table:?}"));
        }
    }
    let list = &[0, 0, 0];
    let all = entries.keep(1, Columns { tails: list, heads: list, lengths: &[1, 2, 3] }, list, list);
    if all == stands(3) { Ok(2 * rows.len() + 1) } else { Err(format!("{all:?}: columns and paths the same list")) }
}

/// Number and place, and how the fault is put into a table and a fresh path.
type Fault = ((u32, u32), fn(&mut Table, &mut Vec<u16>));

/// In the order in which they are tested.
const FAULTS: &[Fault] = &[
    ((1, 0), |table, _| table.n = 0),
    ((1, 0), |table, _| table.n = 1_025),
    ((1, 0), |table, _| table.n = 65_540),
    ((1, 0), |table, _| table.n = u32::MAX),
    ((2, 0), |table, _| table.tails.truncate(4)),
    ((2, 0), |table, _| table.heads.truncate(4)),
    ((2, 0), |table, _| table.lengths.push(1)),
    ((2, 0), |table, _| add_loops(table, MOST_ARCS + 1)),
    ((6, 0), |table, _| table.tails[0] = 4),
    ((7, 0), |table, _| table.lengths[0] = 0),
    ((6, 1), |table, _| table.heads[1] = NO_ARC),
    ((7, 1), |table, _| table.lengths[1] = 0),
    ((6, 2), |table, _| (table.tails[2], table.lengths[2]) = (NO_ARC, DOWN)),
    ((6, 3), |table, _| (table.heads[3], table.lengths[3]) = (4, DOWN)),
    // No walk from 0 to 3 by way of 1.
    ((15, 0), |table, _| table.lengths[4] = DOWN),
    ((15, 0), |_, fresh| fresh.clear()),
    ((15, 0), |_, fresh| fresh.resize(MOST_NODES + 1, 3)),
    ((15, 0), |_, fresh| fresh.push(4)),
    ((15, 0), |_, fresh| fresh.push(NO_ARC)),
    ((15, 0), |_, fresh| fresh.extend([3, 0])),
    ((15, 0), |_, fresh| fresh.reverse()),
];

/// Loops at node 0, up to so many arcs.
fn add_loops(table: &mut Table, arcs: usize) {
    table.tails.resize(arcs, 0);
    table.heads.resize(arcs, 0);
    table.lengths.resize(arcs, 1);
}

/// Of two faults the one that is tested first is told, whatever the standing path is.
fn refusals(entries: &dyn Entries, _: &mut Random) -> Tried {
    let (good, path) = (example(4, &[]), [0, 1, 3]);
    expect(entries, &good, &[0, 2, 3], &path, stands(3))?;
    let standing: [&[u16]; 5] = [&[0, 2, 3], &path, &[], &[3, 0], &[NO_ARC]];
    let mut tried = 1;
    for (place, &((number, at), first)) in FAULTS.iter().enumerate() {
        for other in place..FAULTS.len() {
            let (mut table, mut fresh) = (good.clone(), path.to_vec());
            first(&mut table, &mut fresh);
            if other > place {
                FAULTS[other].1(&mut table, &mut fresh);
            }
            standing.iter().try_for_each(|list| expect(entries, &table, list, &fresh, refused(number, at)))?;
            tried += standing.len();
        }
    }
    let lone: [&[u16]; 3] = [&[4], &[NO_ARC], &[1_024]];
    for fresh in lone {
        expect(entries, &good, &[0, 2, 3], fresh, refused(15, 0))?;
        expect(entries, &good, fresh, fresh, refused(15, 0))?;
    }
    // As much as there may be, and far more.
    let full = wide_table(1_024, 6_000, 0);
    expect(entries, &full, &[0, 21], &[0, 21], stands(2))?;
    expect(entries, &full, &[0, 21], &[0, 1_024], refused(15, 0))?;
    let mut far_more = good.clone();
    add_loops(&mut far_more, 65_536 + 5);
    expect(entries, &far_more, &path, &path, refused(2, 0))?;
    Ok(tried + 2 * lone.len() + 3)
}

fn great_totals(entries: &dyn Entries, _: &mut Random) -> Tried {
    const L: u32 = LONGEST_ARC;
    // From 0 to 1 at once, and by way of 2 and 3: 2^32 and as much as is said.
    let around = |at_once: u32, rest: u32| Table::new(4, 0, &[(0, 1, at_once), (0, 2, L), (2, 3, 2), (3, 1, rest)], &[]);
    let over_two = |at_once: u32| Table::new(3, 0, &[(0, 1, at_once), (0, 2, L), (2, 1, L)], &[]);
    let rows: [Row; 9] = [
        (around(5, 5), &[0, 2, 3, 1], &[0, 1], moves(2)),
        (around(5, 5), &[0, 1], &[0, 2, 3, 1], stands(2)),
        (around(5, 4), &[0, 2, 3, 1], &[0, 1], moves(2)),
        (around(5, 4), &[0, 1], &[0, 2, 3, 1], stands(2)),
        (around(L, 1), &[0, 1], &[0, 2, 3, 1], stands(2)),
        (over_two(L), &[0, 1], &[0, 2, 1], stands(2)),
        (over_two(L), &[0, 2, 1], &[0, 1], moves(2)),
        (over_two(DOWN), &[0, 1], &[0, 2, 1], moves(3)),
        (over_two(DOWN), &[0, 2, 1], &[0, 2, 1], stands(3)),
    ];
    for (table, standing, fresh, expected) in &rows {
        expect(entries, table, standing, fresh, *expected)?;
    }
    // The greatest total, and one less.
    let table = Table::new(3, 0, &[(0, 1, L), (1, 0, L), (0, 2, L), (2, 0, L - 1)], &[]);
    let greatest = there_and_back(1_024);
    let mut less = greatest.clone();
    less[1_021] = 2;
    expect(entries, &table, &greatest, &greatest, stands(1_024))?;
    expect(entries, &table, &less, &greatest, stands(1_024))?;
    expect(entries, &table, &greatest, &less, moves(1_024))?;
    let path: Vec<u16> = (0..1_024).collect();
    expect(entries, &chain(1_024, L), &path, &path, stands(1_024))?;
    Ok(rows.len() + 4)
}

/// So many nodes: 0, 1, 0, 1 and so on.
fn there_and_back(count: usize) -> Vec<u16> {
    (0..count).map(|place| (place % 2) as u16).collect()
}

fn long_lists(entries: &dyn Entries, _: &mut Random) -> Tried {
    // Each step there and back has length 1; over node 2 it is far.
    let arcs = [(0, 1, 1), (1, 0, 1), (0, 2, 1_000), (2, 0, 1_000), (2, 1, 1_000)];
    let (near, all) = (Table::new(2, 0, &arcs[..2], &[]), Table::new(3, 0, &arcs, &[]));
    let counts = [0, 1, 2, 1_022, 1_023, 1_024, 1_025, 1_026, 2_048, 65_537];
    for count in counts {
        let list = there_and_back(count);
        let walk = (1..=MOST_NODES).contains(&count);
        let far = [0, 2, (count as u16 + 1) % 2];
        expect(entries, &all, &list, &far, if walk { stands(count) } else { moves(3) })?;
        expect(entries, &all, &far, &list, if walk { moves(count) } else { refused(15, 0) })?;
        for other in counts {
            let stays = walk && other <= count && other > 0 && other % 2 == count % 2;
            let expected = if !walk { refused(15, 0) } else if stays { stands(other) } else { moves(count) };
            expect(entries, &near, &there_and_back(other), &list, expected)?;
        }
    }
    Ok(counts.len() * (counts.len() + 2))
}
