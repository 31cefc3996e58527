//! "Grounds for turning a table down": each row of the table, and the order of several faults at once.

use super::*;
use crate::compare::{self, right_sizes, Sizes, READER_SIZES};
use crate::shapes;

pub const GROUPS: &[Group] = &[
    Group { name: "grounds: the planner's rows 1 to 8", run: planner_rows },
    Group { name: "grounds: rows 1, 2 and 4 to 7 where a limit is asked for", run: asked_rows },
    Group { name: "grounds: the reader's rows 9 to 12, listing 14, short buffers 13", run: other_rows },
    Group { name: "grounds: buffers of every wrong length", run: wrong_lengths },
    Group { name: "grounds: several faults at once, planner", run: several_faults },
    Group { name: "grounds: several faults at once, a limit asked for", run: several_faults_asked },
    Group { name: "grounds: several faults at once, writer", run: several_faults_written },
];

fn expect(what: &str, answer: (u32, u32), expected: (u32, u32)) -> Result<(), String> {
    if answer == expected { Ok(()) } else { Err(format!("{what}: number and place {answer:?}, must be {expected:?}")) }
}

fn planner_rows(entries: &dyn Entries, _: &mut Random) -> Tried {
    let uneven = Table { heads: vec![1], ..Table::new(2, 0, &[(0, 1, 1), (0, 1, 1)], &[]) };
    let short_prices = [4, 3, 4, 5];
    let rows: Vec<(Table, Option<Sizes>, (u32, u32))> = vec![
        (Table::new(0, 0, &[], &[]), None, (1, 0)),
        (uneven, None, (2, 0)),
        (example(4, &[3]), Some(short_prices), (3, 0)),
        (Table { origin: 4, ..example(4, &[3]) }, None, (4, 0)),
        (example(4, &[3, 4]), None, (5, 1)),
        (example(4, &[0; 1_025]), None, (5, 1_024)),
        (example(4, &[9; 1_025]), None, (5, 1_024)),
        (example(4, &[0; 1_024]), None, (0, 0)),
        (Table::new(1, 0, &[(0, 1, 1)], &[]), None, (6, 0)),
        (Table::new(1, 0, &[(0, 0, 1), (1, 0, 1)], &[]), None, (6, 1)),
        (Table::new(2, 0, &[(0, 1, 0)], &[]), None, (7, 0)),
        (Table::new(2, 0, &[(0, 2, 0)], &[]), None, (6, 0)),
        (Table::new(2, 0, &[(0, 1, 0), (0, 2, 1)], &[]), None, (7, 0)),
        (Table::new(2, 0, &[(0, 2, DOWN)], &[]), None, (6, 0)),
        (Table::new(2, 0, &[(0, 1, 1), (2, 1, DOWN)], &[1]), None, (6, 1)),
        (Table::new(2, 0, &[(2, 1, DOWN), (0, 1, 0)], &[1]), None, (6, 0)),
        (Table::new(2, 0, &[(0, 1, DOWN), (0, 1, 0)], &[1]), None, (7, 1)),
        (Table::new(2, 0, &[(0, 1, DOWN)], &[0, 1]), None, (8, 1)),
        (Table::new(2, 0, &[], &[1]), None, (8, 0)),
        (Table::new(3, 0, &[(0, 1, 1)], &[1, 0, 2, 2]), None, (8, 2)),
    ];
    for (table, sizes, expected) in &rows {
        let sizes = sizes.unwrap_or(right_sizes(table));
        compare::plan_sized(entries, table, sizes)?;
        let (mut distances, mut prices) = (vec![0; sizes[0]], vec![0; sizes[1]]);
        let (mut tree, mut marks) = (vec![0; sizes[2]], vec![0; sizes[3]]);
        let out = PlanBuffers { distances: &mut distances, prices: &mut prices, tree: &mut tree, marks: &mut marks };
        let answer = entries.plan(table, out);
        expect(&format!("{table:?}"), (answer.number, answer.place), *expected)?;
    }
    Ok(rows.len())
}

/// As for a wanted list of this one node, without buffers; a refusal says no, after 0 iterations.
fn asked_rows(entries: &dyn Entries, _: &mut Random) -> Tried {
    let t = || example(4, &[]);
    let uneven = || Table { heads: vec![1], ..Table::new(2, 0, &[(0, 1, 1), (0, 1, 1)], &[]) };
    let arcs = |arcs: &[Arc]| Table::new(2, 0, arcs, &[]);
    let rows = [
        (Table { n: 0, ..t() }, 0, (1, 0)),
        (Table { n: 1_025, ..t() }, 0, (1, 0)),
        (uneven(), 0, (2, 0)),
        (wide_table(4, 6_001, 0), 0, (2, 0)),
        (Table { origin: 4, ..t() }, 3, (4, 0)),
        (t(), 4, (5, 0)),
        (t(), NO_ARC, (5, 0)),
        (arcs(&[(0, 2, 1)]), 1, (6, 0)),
        (arcs(&[(0, 1, 1), (2, 1, 1)]), 1, (6, 1)),
        (arcs(&[(0, 1, 1), (2, 1, DOWN)]), 1, (6, 1)),
        (arcs(&[(0, 1, 0)]), 1, (7, 0)),
        (arcs(&[(0, 1, DOWN), (0, 1, 0)]), 1, (7, 1)),
        // Two faults and more.
        (Table { n: 0, ..uneven() }, 0, (1, 0)),
        (Table { origin: 2, ..uneven() }, 2, (2, 0)),
        (Table { origin: 4, ..t() }, 4, (4, 0)),
        (Table { origin: 2, ..arcs(&[(0, 2, 0)]) }, 1, (4, 0)),
        (arcs(&[(0, 2, 1)]), 2, (5, 0)),
        (arcs(&[(0, 1, 0)]), 2, (5, 0)),
        (arcs(&[(0, 2, 0)]), 1, (6, 0)),
        (arcs(&[(0, 1, 0), (0, 2, 1)]), 1, (7, 0)),
        (arcs(&[(2, 1, DOWN), (0, 1, 0)]), 1, (6, 0)),
        // No walk is no ground.
        (arcs(&[]), 1, (0, 0)),
        (arcs(&[(0, 1, DOWN)]), 1, (0, 0)),
    ];
    for (table, node, (number, place)) in &rows {
        for limit in [0, u64::MAX] {
            compare::within(entries, table, *node, limit)?;
            let answer = entries.within(table, *node, limit);
            if answer != (Within { number: *number, place: *place, ..Within::default() }) {
                return Err(format!("{answer:?}, must be refused with {number} at {place}: node {node}, {table:?}"));
            }
        }
    }
    Ok(2 * rows.len())
}

fn other_rows(entries: &dyn Entries, _: &mut Random) -> Tried {
    let after_last_head = [1, 1, 0, 7, 0, 0, 255, 255, 1, 0, 0, 0, 4, 2, 0, 0, 0];
    let files: [(&[u8], (u32, u32)); 13] = [
        (&[1], (9, 1)),
        (&[], (9, 0)),
        (&[2], (10, 0)),
        (&[8], (10, 0)),
        (&after_last_head, (11, 12)),
        (&[3, 1, 0, 0, 0], (12, 0)),
        (&[5, 1, 0, 1, 0, 0, 0], (12, 0)),
        (&[1, 0, 0], (1, 0)),
        (&[1, 1, 4], (1, 0)),
        (&[5, 1, 0, 1, 4], (5, 1_024)),
        (&[1, 1, 0, 5], (10, 3)),
        (&[1, 1, 0, 7, 0], (9, 5)),
        (&[1, 1, 0, 7, 0, 0, 0, 0, 1, 0, 0, 0, 4, 1, 0, 0, 0], (12, 12)),
    ];
    for (file, (number, place)) in files {
        compare::read(entries, file)?;
        let refusal = compare::read_table(entries, file).err();
        expect(&compare::hexadecimal(file), refusal.map_or((0, 0), |r| (r.number, r.place)), (number, place))?;
    }
    let path_of_three = Listing { origin: 0, node: 2, tails: vec![0, 1], heads: vec![1, 2], tree: vec![NO_ARC, 0, 1] };
    let broken = Listing { node: 1, tree: vec![NO_ARC, NO_ARC, 1], ..path_of_three.clone() };
    let listings = [(&path_of_three, 2, (13, 0)), (&path_of_three, 3, (0, 0)), (&broken, 0, (14, 0)), (&broken, 3, (14, 0))];
    for (listing, room, expected) in listings {
        compare::list(entries, listing, room)?;
        let answer = entries.list(listing, &mut vec![0; room]);
        expect(&format!("{listing:?}"), (answer.number, answer.place), expected)?;
    }
    Ok(files.len() + listings.len())
}

fn wrong_lengths(entries: &dyn Entries, _: &mut Random) -> Tried {
    let mut tried = 0;
    for buffer in 0..4 {
        for length in [0, 1, 3, 4, 5, 6, 7, 100] {
            let table = example(4, &[3]);
            let mut sizes = right_sizes(&table);
            sizes[buffer] = length;
            compare::plan_sized(entries, &table, sizes)?;
            let mut sizes = READER_SIZES;
            sizes[buffer] = sizes[buffer] + length - 5;
            compare::read_sized(entries, EXAMPLE_FILE, sizes)?;
            compare::read_sized(entries, &[8], sizes)?;
            tried += 3;
        }
    }
    compare::read_sized(entries, EXAMPLE_FILE, [0; 4])?;
    Ok(tried + 1)
}

/// Puts faults of random grounds into a table and its buffers' sizes.
fn damage(random: &mut Random, table: &mut Table, sizes: &mut Sizes) {
    for _ in 0..random.from(1, 4) {
        let m = table.lengths.len().min(table.tails.len()).min(table.heads.len());
        let no_node = random.pick(&[table.n as u16, NO_ARC]);
        let index = random.below(table.wanted.len().max(1));
        let position = random.below(m.max(1));
        match random.below(12) {
            0 => table.n = random.pick(&[0, 1, 1_025, 65_535, 65_536, 65_537, u32::MAX]),
            1 => drop(table.tails.pop()),
            2 => drop(table.heads.pop()),
            3 => table.lengths.push(1),
            4 => sizes[random.below(4)] += random.pick(&[0, 1, 1, 1_000]),
            5 => table.origin = random.pick(&[table.n as u16, 1_024, NO_ARC]),
            6 => table.wanted.resize(random.pick(&[1_024, 1_025, 70_000]), 0),
            7 if !table.wanted.is_empty() => table.wanted[index] = no_node,
            8 if m > 0 => table.tails[position] = no_node,
            9 if m > 0 => table.heads[position] = no_node,
            10 if m > 0 => table.lengths[position] = 0,
            11 if m > 0 => (table.tails[position], table.lengths[position]) = (no_node, DOWN),
            _ => {}
        }
    }
}

pub fn damaged_table(random: &mut Random) -> (Table, Sizes) {
    let shape = random.pick(&shapes::SHAPES);
    let n = random.from(1, 8);
    let mut table = shapes::table(random, shape, n);
    if random.one_in(50) {
        table = wide_table(n as u32, 6_001, 1_025);
    }
    let mut sizes = right_sizes(&table);
    damage(random, &mut table, &mut sizes);
    (table, sizes)
}

fn several_faults(entries: &dyn Entries, random: &mut Random) -> Tried {
    let tried = 20_000;
    for _ in 0..tried {
        let (table, sizes) = damaged_table(random);
        compare::plan_sized(entries, &table, sizes)?;
    }
    Ok(tried)
}

fn several_faults_asked(entries: &dyn Entries, random: &mut Random) -> Tried {
    let tried = 20_000;
    for _ in 0..tried {
        let (table, _) = damaged_table(random);
        let node = random.pick(&[0, 0, 1, table.n as u16, NO_ARC]);
        compare::within(entries, &table, node, random.pick(&[0, 3, u64::MAX]))?;
    }
    Ok(tried)
}

fn several_faults_written(entries: &dyn Entries, random: &mut Random) -> Tried {
    let tried = 5_000;
    for _ in 0..tried {
        let (table, _) = damaged_table(random);
        compare::write(entries, &table, random.pick(&[0, 10, 100, LONGEST_FILE]))?;
    }
    Ok(tried)
}
