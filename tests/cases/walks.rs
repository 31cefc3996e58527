//! Keeping the path in use beside a fresh one: short lists on small tables, and random walks on random tables.

use super::*;
use crate::compare;
use crate::shapes::{self, SHAPES};
use std::collections::BTreeMap;
use std::mem::swap;

pub const GROUPS: &[Group] = &[
    Group { name: "keeping: several faults at once", run: several_faults },
    Group { name: "keeping: all tables of two and three nodes with few arcs, short lists", run: all_small },
    Group { name: "keeping: parallel arcs and loops", run: parallel },
    Group { name: "keeping: the table without its down links, and with its links in another order", run: other_tables },
    Group { name: "keeping: random walks, tables of 1 to 12 nodes", run: small },
    Group { name: "keeping: random walks, tables of up to 1,024 nodes", run: large },
];

/// How often the standing path was kept, the fresh one, and how often there was a refusal.
#[derive(Default)]
pub struct Seen {
    standing: usize,
    fresh: usize,
    refused: usize,
    /// How often the standing path was kept and was another list than the fresh one.
    other_standing: usize,
}

impl Seen {
    pub fn add(&mut self, answer: &Kept, same_list: bool) {
        match answer {
            Kept { number: 0, standing: 0, .. } => self.fresh += 1,
            Kept { number: 0, .. } => self.standing += 1,
            _ => self.refused += 1,
        }
        self.other_standing += (answer.standing == 1 && !same_list) as usize;
    }

    pub fn join(&mut self, other: Seen) {
        self.standing += other.standing;
        self.fresh += other.fresh;
        self.refused += other.refused;
        self.other_standing += other.other_standing;
    }

    /// How many cases there were. In at least so many of them the fresh path was kept, and in as many a standing one that
    /// was another list.
    pub fn enough(&self, least: usize) -> Tried {
        let (fresh, other) = (self.fresh, self.other_standing);
        let words = || format!("too few of a kind: {fresh} fresh paths kept, {other} other standing ones");
        if fresh.min(other) >= least { Ok(self.standing + fresh + self.refused) } else { Err(words()) }
    }
}

/// A random walk of at most so many steps from a node. It ends where no arc leads on.
pub fn walk(random: &mut Random, table: &Table, start: u16, most_steps: usize) -> Vec<u16> {
    let ends = table.tails.iter().zip(&table.heads).zip(&table.lengths);
    let mut next: BTreeMap<u16, Vec<u16>> = BTreeMap::new();
    for ((&tail, &head), _) in ends.filter(|(_, &length)| length != DOWN) {
        next.entry(tail).or_default().push(head);
    }
    let mut nodes = vec![start];
    for _ in 0..random.below(most_steps + 1) {
        let Some(heads) = next.get(&nodes[nodes.len() - 1]) else { break };
        nodes.push(random.pick(heads));
    }
    nodes
}

/// A walk without what it does between two times at the same node.
fn without_detour(random: &mut Random, walk: &[u16]) -> Vec<u16> {
    let place = random.below(walk.len());
    let last = walk.iter().rposition(|&node| node == walk[place]).unwrap_or(place);
    [&walk[..place], &walk[last..]].concat()
}

/// The list with a node dropped, repeated, changed or added; or a part of it; or turned round.
pub fn astray(random: &mut Random, n: u32, list: &[u16]) -> Vec<u16> {
    let mut list = list.to_vec();
    let place = random.below(list.len() + 1);
    let inside = random.below(n.max(1) as usize) as u16;
    let node = random.pick(&[inside, inside, inside, n as u16, NO_ARC]);
    match random.below(7) {
        0 if place < list.len() => drop(list.remove(place)),
        1 if place < list.len() => list.insert(place, list[place]),
        2 if place < list.len() => list[place] = node,
        3 => list.truncate(place),
        4 => drop(list.drain(..place)),
        5 => list.reverse(),
        _ => list.insert(place, node),
    }
    list
}

/// A standing path and a fresh one, most of them walks between the same two nodes.
fn two_paths(random: &mut Random, table: &Table, most_steps: usize) -> (Vec<u16>, Vec<u16>) {
    let start = random.below(table.n.max(1) as usize) as u16;
    let mut standing = walk(random, table, start, most_steps);
    let mut fresh = walk(random, table, start, most_steps);
    if random.one_in(2) {
        fresh = without_detour(random, &standing);
    }
    if let Some(end) = standing.iter().rposition(|node| fresh.last() == Some(node)) {
        standing.truncate(end + 1);
    }
    if random.one_in(2) {
        swap(&mut standing, &mut fresh);
    }
    if random.one_in(8) {
        standing = astray(random, table.n, &standing);
    }
    if random.one_in(16) {
        fresh = astray(random, table.n, &fresh);
    }
    (standing, fresh)
}

fn several_faults(entries: &dyn Entries, random: &mut Random) -> Tried {
    let tried = 20_000;
    for _ in 0..tried {
        let (table, _) = grounds::damaged_table(random);
        let (standing, fresh) = two_paths(random, &table, 6);
        compare::keep(entries, &table, &standing, &fresh)?;
    }
    Ok(tried)
}

/// Every list of up to three nodes, the first that is not below n included; the shortest first.
fn short_lists(n: u16) -> Vec<Vec<u16>> {
    let longer = |list: &Vec<u16>| (0..=n).map(|node| [&list[..], &[node]].concat()).collect::<Vec<_>>();
    let mut lists = vec![vec![]];
    for length in 0..3 {
        let longest: Vec<Vec<u16>> = lists.iter().filter(|list| list.len() == length).flat_map(longer).collect();
        lists.extend(longest);
    }
    lists
}

/// On tables of at most three arcs, or two on three nodes, each list as the fresh path beside each as the standing one,
/// or beside a few where it is refused; on the others random paths.
fn all_small(entries: &dyn Entries, random: &mut Random) -> Tried {
    let mut tried = 0;
    for table in all_small_tables() {
        if table.tails.len() + table.n as usize > 5 {
            for _ in 0..8 {
                let (standing, fresh) = two_paths(random, &table, 3);
                compare::keep(entries, &table, &standing, &fresh)?;
            }
            tried += 8;
            continue;
        }
        let lists = short_lists(table.n as u16);
        for fresh in &lists {
            let walk = compare::keep(entries, &table, fresh, fresh)?.number == 0;
            let standing = if walk { &lists[..] } else { &lists[..4] };
            standing.iter().try_for_each(|standing| compare::keep(entries, &table, standing, fresh).map(drop))?;
            tried += 1 + standing.len();
        }
    }
    Ok(tried)
}

/// Few nodes with many arcs between them.
fn parallel(entries: &dyn Entries, random: &mut Random) -> Tried {
    let mut seen = Seen::default();
    for _ in 0..4_000 {
        let n = random.from(1, 3);
        let most = random.pick(&[2, 4, 8]);
        let arc = |random: &mut Random| (random.below(n) as u16, random.below(n) as u16, random.from(1, most) as u32);
        let arcs: Vec<Arc> = (0..random.from(1, 16)).map(|_| arc(random)).collect();
        let mut table = Table::new(n as u32, 0, &arcs, &[]);
        let share = random.pick(&[0, 0, 20]);
        shapes::take_down(random, &mut table, share);
        for _ in 0..20 {
            let (standing, fresh) = two_paths(random, &table, 6);
            seen.add(&compare::keep(entries, &table, &standing, &fresh)?, standing == fresh);
        }
    }
    seen.enough(5_000)
}

/// The answer is that of the table without its down arcs, and of the table with its arcs in any order.
fn other_tables(entries: &dyn Entries, random: &mut Random) -> Tried {
    let mut seen = Seen::default();
    for _ in 0..1_500 {
        let shape = random.pick(&SHAPES);
        let n = random.from(1, 30);
        let mut table = shapes::table(random, shape, n);
        let paths: Vec<_> = (0..2).map(|_| two_paths(random, &table, 10)).collect();
        for share in [0, 2, 10, 50] {
            shapes::take_down(random, &mut table, share);
            let (other, _) = table.without(DOWN);
            let mut arcs = table.arcs();
            random.shuffle(&mut arcs);
            let shuffled = Table::new(table.n, table.origin, &arcs, &[]);
            for (standing, fresh) in &paths {
                let answer = compare::keep(entries, &table, standing, fresh)?;
                let differs = |table: &Table| entries.keep(table.n, table.columns(), standing, fresh) != answer;
                if differs(&other) || differs(&shuffled) {
                    return Err(format!("not as without its down arcs, or in any order: {standing:?}, {fresh:?}, {table:?}"));
                }
                seen.add(&answer, standing == fresh);
            }
        }
    }
    seen.enough(300)
}

/// Random walks on so many tables, of at most so many nodes and steps.
fn random_walks(
    entries: &dyn Entries, random: &mut Random, count: usize, most_nodes: usize, most_steps: usize,
) -> Result<Seen, String> {
    let mut seen = Seen::default();
    for _ in 0..count {
        let shape = random.pick(&SHAPES);
        let n = random.from(1, most_nodes);
        let table = shapes::table(random, shape, n);
        for _ in 0..5 {
            let (standing, fresh) = two_paths(random, &table, most_steps);
            seen.add(&compare::keep(entries, &table, &standing, &fresh)?, standing == fresh);
        }
    }
    Ok(seen)
}

fn small(entries: &dyn Entries, random: &mut Random) -> Tried {
    random_walks(entries, random, 40_000, 12, 8)?.enough(5_000)
}

/// Some of the walks have more than 1,024 nodes.
fn large(entries: &dyn Entries, random: &mut Random) -> Tried {
    random_walks(entries, random, 200, 1_024, 1_100)?.enough(20)
}
