//! Keeping the path in use beside the fresh path of a finished plan, where the least distances say which is kept.

use super::walks::{astray, walk, Seen};
use super::*;
use crate::compare::{self, plan_filled, plan_to_collector_filled};
use crate::optimality::{check_kept, least_distances, least_to_collector};
use crate::shapes::{self, SHAPES};
use std::collections::BTreeMap;

pub const GROUPS: &[Group] = &[
    Group { name: "keeping: beside finished plans, the table changed", run: from_origin },
    Group { name: "keeping: beside finished plans to a collector, the table changed", run: to_collector },
];

/// From the origin to the nodes, or from them to a collector.
#[derive(Clone, Copy)]
pub enum Way {
    FromOrigin,
    ToCollector,
}

impl Way {
    /// The path of each node that a plan of the table reaches.
    fn paths(self, entries: &dyn Entries, table: &Table) -> BTreeMap<u16, Vec<u16>> {
        let (_, filled) = match self {
            Way::FromOrigin => plan_filled(entries, table),
            Way::ToCollector => plan_to_collector_filled(entries, table),
        };
        let Table { origin, tails, heads, .. } = table.clone();
        let mut listing = Listing { origin, node: 0, tails, heads, tree: filled.tree };
        let mut output = vec![0; table.n as usize];
        let mut path = |node: u16| {
            listing.node = node;
            let listed = match self {
                Way::FromOrigin => entries.list(&listing, &mut output),
                Way::ToCollector => entries.list_to_collector(&listing, &mut output),
            };
            (node, output[..listed.count as usize].to_vec())
        };
        let reached = nodes(table).into_iter().filter(|&node| filled.distances[node as usize] != NO_DISTANCE);
        reached.map(|node| path(node)).collect()
    }

    fn least(self, table: &Table) -> Vec<Option<u64>> {
        match self {
            Way::FromOrigin => least_distances(table),
            Way::ToCollector => least_to_collector(table),
        }
    }

    /// Any one of the shortest paths of a node; none where the node has no walk.
    fn shortest(self, random: &mut Random, table: &Table, least: &[Option<u64>], node: u16) -> Vec<u16> {
        if least[node as usize].is_none() {
            return vec![];
        }
        let arcs = table.without(DOWN).0.arcs();
        let mut path = vec![node];
        let mut at = node;
        while at != table.origin {
            let before = |&(tail, head, length): &Arc| {
                let (near, far) = if matches!(self, Way::FromOrigin) { (tail, head) } else { (head, tail) };
                let through = least[near as usize].map(|distance| distance + length as u64);
                (far == at && through == least[at as usize]).then_some(near)
            };
            at = random.pick(&arcs.iter().filter_map(before).collect::<Vec<u16>>());
            path.push(at);
        }
        if matches!(self, Way::FromOrigin) {
            path.reverse();
        }
        path
    }
}

/// A length that is often as great as another one, or nearly.
fn near(random: &mut Random, length: u32) -> u32 {
    let length = length.min(LONGEST_ARC) as u64;
    random.pick(&[length, length + 1, length - 1, 2 * length, length / 2, 1]).clamp(1, LONGEST_ARC as u64) as u32
}

/// The table with some arcs longer, shorter, down or up again, and some added at the end or before others; sometimes they
/// are listed in another order, so that the plan has other ones of equally long paths.
fn changed(random: &mut Random, table: &Table) -> Table {
    let mut arcs = table.arcs();
    for _ in 0..random.from(0, 4) {
        let place = random.below(arcs.len().max(1));
        let known = arcs.get(place).map_or(1, |arc| arc.2);
        let mut node = || random.below(table.n as usize) as u16;
        let added = (node(), node(), near(random, known));
        match random.below(6) {
            0 if place < arcs.len() => arcs[place].2 = DOWN,
            1 | 2 if place < arcs.len() => arcs[place].2 = near(random, known),
            3 | 4 => arcs.insert(place, added),
            _ => arcs.push(added),
        }
    }
    if random.one_in(2) {
        random.shuffle(&mut arcs);
    }
    arcs.truncate(MOST_ARCS);
    let wanted = shapes::wanted(random, table.n as usize, table.origin);
    Table::new(table.n, table.origin, &arcs, &wanted)
}

/// What is asked for the two paths, the standing one first.
pub type Ask<'a> = &'a dyn Fn(&Table, &[u16], &[u16]) -> Result<Kept, String>;

/// Plans a table, changes it and plans again. Beside the fresh paths of some nodes the former ones and others stand, and
/// the least distances say which are kept.
pub fn beside_plan(entries: &dyn Entries, ask: Ask, way: Way, random: &mut Random, table: &Table) -> Result<Seen, String> {
    let former = way.paths(entries, table);
    let table = changed(random, table);
    let least = way.least(&table);
    let mut seen = Seen::default();
    let mut fresh: Vec<(u16, Vec<u16>)> = way.paths(entries, &table).into_iter().collect();
    random.shuffle(&mut fresh);
    for (node, fresh) in fresh.iter().take(8) {
        let Some(&start) = fresh.first() else { return Err(format!("node {node} is reached and not listed: {table:?}")) };
        let own = former.get(node).cloned().unwrap_or_default();
        let another = former.values().nth(random.below(former.len())).cloned().unwrap_or_default();
        let (own_astray, fresh_astray) = (astray(random, table.n, &own), astray(random, table.n, fresh));
        let others = [another, own_astray, fresh_astray, walk(random, &table, start, 4)];
        for standing in [own, way.shortest(random, &table, &least, *node), random.pick(&others)] {
            let kept = ask(&table, &standing, fresh)?;
            let with_paths = |fault| format!("{fault}\n  standing {standing:?}, fresh {fresh:?}, {table:?}");
            check_kept(&table, least[*node as usize], &standing, fresh, &kept).map_err(with_paths)?;
            seen.add(&kept, standing == *fresh);
        }
    }
    Ok(seen)
}

/// A random table to be planned that way; in half of them the lengths are such that many paths are equally long.
fn table_to_plan(random: &mut Random, way: Way, most_nodes: usize) -> Table {
    let shape = random.pick(&SHAPES);
    let n = random.from(1, most_nodes);
    let mut table = shapes::table(random, shape, n);
    if random.one_in(2) {
        table.lengths.iter_mut().filter(|length| **length != DOWN).for_each(|length| *length = random.from(1, 2) as u32);
    }
    let leads_away = matches!(way, Way::FromOrigin) || random.one_in(4);
    if leads_away { table } else { table.exchanged() }
}

fn random_plans(entries: &dyn Entries, random: &mut Random, way: Way) -> Tried {
    let ask = |table: &Table, standing: &[u16], fresh: &[u16]| compare::keep(entries, table, standing, fresh);
    let mut seen = Seen::default();
    for (count, most_nodes) in [(6_000, 12), (3_000, 40), (30, 1_024)] {
        for _ in 0..count {
            let table = table_to_plan(random, way, most_nodes);
            seen.join(beside_plan(entries, &ask, way, random, &table)?);
        }
    }
    seen.enough(500)
}

fn from_origin(entries: &dyn Entries, random: &mut Random) -> Tried {
    random_plans(entries, random, Way::FromOrigin)
}

fn to_collector(entries: &dyn Entries, random: &mut Random) -> Tried {
    random_plans(entries, random, Way::ToCollector)
}
