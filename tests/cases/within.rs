//! Whether a node is within a limit: against the model, the plan for that node and the distances.

use super::*;
use crate::compare;
use crate::optimality::least_distances;
use crate::shapes::{self, SHAPES};

pub const GROUPS: &[Group] = &[
    Group { name: "within a limit: all tables of two and three nodes with few arcs", run: all_small },
    Group { name: "within a limit: links down, and the table without them", run: without_down },
    Group { name: "within a limit: random tables of 1 to 12 nodes", run: small },
    Group { name: "within a limit: random tables of up to 80 nodes", run: medium },
    Group { name: "within a limit: random tables of up to 1,024 nodes", run: large },
    Group { name: "within a limit: long chains, and distances of more than 32 bits", run: long_chains },
];

/// The least limit and the greatest, and for each of the nodes that has a walk its distance, one less and one more. They
/// ascend.
pub fn limits_about(table: &Table, nodes: &[u16]) -> Vec<u64> {
    let least = least_distances(table);
    let distances = nodes.iter().filter_map(|&node| least[node as usize]);
    let mut limits: Vec<u64> = distances.flat_map(|distance| [distance.saturating_sub(1), distance, distance + 1]).collect();
    limits.extend([0, u64::MAX]);
    limits.sort();
    limits.dedup();
    limits
}

/// Asks for a node with each of the limits. As they ascend, no yes and no iteration is lost.
fn ask_each(entries: &dyn Entries, table: &Table, node: u16, limits: &[u64]) -> Tried {
    let mut last = Within::default();
    for &limit in limits {
        compare::within(entries, table, node, limit)?;
        let answer = entries.within(table, node, limit);
        if answer.within < last.within || answer.iterations < last.iterations {
            return Err(format!("limit {limit}: {answer:?}, with a lesser one {last:?}, node {node}, {table:?}"));
        }
        last = answer;
    }
    Ok(limits.len())
}

fn ask_all(entries: &dyn Entries, table: &Table, nodes: &[u16], limits: &[u64]) -> Tried {
    nodes.iter().map(|&node| ask_each(entries, table, node, limits)).sum()
}

fn all_small(entries: &dyn Entries, _: &mut Random) -> Tried {
    let limits = [0, 1, 2, 3, 4, u64::MAX];
    all_small_tables().map(|table| ask_all(entries, &table, &nodes(&table), &limits)).sum()
}

/// The answer is that of the table without its down arcs.
fn without_down(entries: &dyn Entries, random: &mut Random) -> Tried {
    let mut tried = 0;
    for _ in 0..1_000 {
        let shape = random.pick(&SHAPES);
        let n = random.from(1, 30);
        let mut table = shapes::table(random, shape, n);
        for share in [0, 10, 50, 100] {
            shapes::take_down(random, &mut table, share);
            let (other, _) = table.without(DOWN);
            let node = random.below(n) as u16;
            let limits = limits_about(&table, &[node]);
            tried += ask_each(entries, &table, node, &limits)?;
            if limits.iter().any(|&limit| entries.within(&table, node, limit) != entries.within(&other, node, limit)) {
                return Err(format!("not as without its down arcs: node {node}, {table:?}"));
            }
        }
    }
    Ok(tried)
}

/// Asks for some nodes of each table, with limits about their distances and some up to twice the greatest of these.
fn random_tables(entries: &dyn Entries, random: &mut Random, count: usize, most_nodes: usize, most_asked: usize) -> Tried {
    let mut tried = 0;
    for _ in 0..count {
        let shape = random.pick(&SHAPES);
        let n = random.from(1, most_nodes);
        let table = shapes::table(random, shape, n);
        let mut asked = nodes(&table);
        random.shuffle(&mut asked);
        asked.truncate(most_asked);
        let mut limits = limits_about(&table, &asked);
        let greatest = limits[limits.len() - 2];
        limits.extend((0..4).map(|_| random.number() % (2 * greatest + 1)));
        limits.sort();
        tried += ask_all(entries, &table, &asked, &limits)?;
    }
    Ok(tried)
}

fn small(entries: &dyn Entries, random: &mut Random) -> Tried {
    random_tables(entries, random, 2_000, 12, 12)
}

fn medium(entries: &dyn Entries, random: &mut Random) -> Tried {
    random_tables(entries, random, 300, 80, 6)
}

fn large(entries: &dyn Entries, random: &mut Random) -> Tried {
    random_tables(entries, random, 50, 1_024, 2)
}

fn long_chains(entries: &dyn Entries, _: &mut Random) -> Tried {
    let mut tried = 0;
    for length in [1, LONGEST_ARC] {
        let table = chain(1_024, length);
        let asked = [0, 1, 2, 1_023];
        let mut limits = limits_about(&table, &asked);
        limits.extend([(1 << 32) - 1, 1 << 32, (1 << 32) + 1]);
        limits.sort();
        tried += ask_all(entries, &table, &asked, &limits)?;
    }
    Ok(tried)
}
