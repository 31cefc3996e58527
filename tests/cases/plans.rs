//! Plans of random tables, against the model and against the optimality check.

use super::*;
use crate::compare::{self, plan_filled};
use crate::optimality::Filled;
use crate::shapes::{self, Shape, SHAPES};
use std::thread;

pub const GROUPS: &[Group] = &[
    Group { name: "plans: all tables of two and three nodes with few arcs", run: all_small },
    Group { name: "plans: links down, and the table without them", run: without_down },
    Group { name: "plans: random tables of 1 to 12 nodes", run: small },
    Group { name: "plans: random tables of up to 80 nodes", run: medium },
    Group { name: "plans: random tables of up to 1,024 nodes", run: large },
    Group { name: "plans: every shape at the limits", run: shapes_at_limits },
    Group { name: "plans: many iterations", run: many_iterations },
    Group { name: "plans: two threads at once", run: two_threads },
];

fn all_small(entries: &dyn Entries, _: &mut Random) -> Tried {
    let mut tried = 0;
    for table in all_small_tables() {
        let last = table.n as u16 - 1;
        let lists = [vec![], vec![1], vec![last], vec![1, 0, last]];
        tried += lists.len();
        lists.into_iter().try_for_each(|wanted| compare::plan(entries, &Table { wanted, ..table.clone() }))?;
    }
    Ok(tried)
}

/// A plan is that of the table without its down arcs, whose positions are told as they stand in the table.
pub fn alike_without_down(plan: impl Fn(&Table) -> (Planned, Filled), table: &Table) -> Result<(), String> {
    let (other, places) = table.without(DOWN);
    let ((answer, filled), (expected, closed_up)) = (plan(table), plan(&other));
    let place = |&arc: &u16| if arc == NO_ARC { NO_ARC } else { places[arc as usize] as u16 };
    let mut marks = vec![1; table.tails.len()];
    places.iter().zip(&closed_up.marks).for_each(|(&place, &mark)| marks[place] = mark);
    let alike = answer == expected
        && filled.distances == closed_up.distances
        && filled.prices == closed_up.prices
        && filled.tree == closed_up.tree.iter().map(place).collect::<Vec<u16>>()
        && filled.marks == marks;
    if alike { Ok(()) } else { Err(format!("not the plan of the table without its down arcs: {table:?}")) }
}

fn without_down(entries: &dyn Entries, random: &mut Random) -> Tried {
    let (rounds, shares) = (3_000, [0, 10, 50, 100]);
    for _ in 0..rounds {
        let shape = random.pick(&SHAPES);
        let n = random.from(1, 30);
        let mut table = shapes::table(random, shape, n);
        for share in shares {
            shapes::take_down(random, &mut table, share);
            compare::plan(entries, &table)?;
            alike_without_down(|table| plan_filled(entries, table), &table)?;
        }
    }
    Ok(rounds * shares.len())
}

fn random_tables(entries: &dyn Entries, random: &mut Random, count: usize, most_nodes: usize) -> Tried {
    for _ in 0..count {
        let shape = random.pick(&SHAPES);
        let n = random.from(1, most_nodes);
        compare::plan(entries, &shapes::table(random, shape, n))?;
    }
    Ok(count)
}

fn small(entries: &dyn Entries, random: &mut Random) -> Tried {
    random_tables(entries, random, 150_000, 12)
}

fn medium(entries: &dyn Entries, random: &mut Random) -> Tried {
    random_tables(entries, random, 5_000, 80)
}

fn large(entries: &dyn Entries, random: &mut Random) -> Tried {
    random_tables(entries, random, 200, 1_024)
}

/// A table of every shape as large as it can be, with all nodes wanted and with the last one.
pub fn tables_at_limits(random: &mut Random) -> Vec<Table> {
    let mut tables = Vec::new();
    for shape in SHAPES {
        let n = if matches!(shape, Shape::Dense) { 77 } else { 1_024 };
        let ends = shapes::ends(random, shape, n);
        let lengths = shapes::lengths(random, ends.len());
        let arcs = ends.iter().zip(lengths).map(|(ends, length)| (ends.0 as u16, ends.1 as u16, length));
        let arcs: Vec<Arc> = arcs.take(MOST_ARCS).collect();
        let all: Vec<u16> = (0..n as u16).collect();
        tables.push(Table::new(n as u32, 0, &arcs, &all));
        tables.push(Table::new(n as u32, 0, &arcs, &[n as u16 - 1]));
    }
    tables
}

fn shapes_at_limits(entries: &dyn Entries, random: &mut Random) -> Tried {
    let tables = tables_at_limits(random);
    tables.iter().try_for_each(|table| compare::plan(entries, table))?;
    Ok(tables.len())
}

fn many_iterations(entries: &dyn Entries, _: &mut Random) -> Tried {
    let tables = [chain(1_024, 1), chain(1_024, LONGEST_ARC)];
    tables.iter().try_for_each(|table| compare::plan(entries, table))?;
    Ok(tables.len())
}

fn two_threads(entries: &dyn Entries, random: &mut Random) -> Tried {
    let (first, second) = (random.number(), random.number());
    let half = |seed| random_tables(entries, &mut Random::new(seed), 2_000, 20);
    thread::scope(|scope| {
        let other = scope.spawn(move || half(first));
        let mine = half(second)?;
        Ok(mine + other.join().map_err(|_| "a thread failed".to_string())??)
    })
}
