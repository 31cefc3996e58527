//! Checks a finished plan without any auction: least distances over all walks by relaxing every arc
//! until nothing changes, then each promise about distances, links, prices, walks and "no route"; and
//! by the same distances whether a node is within a limit, and which path is kept beside that of a
//! finished plan. A plan to a collector is checked on the table as it stands: the collector is its
//! origin, and the senders are its wanted nodes.

use crate::rules::*;
use std::collections::BTreeMap;

/// The four buffers of a plan, filled.
#[derive(Debug, PartialEq)]
pub struct Filled {
    pub distances: Vec<u64>,
    pub prices: Vec<u64>,
    pub tree: Vec<u16>,
    pub marks: Vec<u8>,
}

/// The arcs that are not down, with their positions.
fn present_arcs(table: &Table) -> Vec<(usize, Arc)> {
    table.arcs().into_iter().enumerate().filter(|(_, arc)| arc.2 != DOWN).collect()
}

/// The least length of all walks from the origin to each node; none where there is no walk.
pub fn least_distances(table: &Table) -> Vec<Option<u64>> {
    least_over(table, |(tail, head, _)| (tail, head))
}

/// The least length of all walks from each node to the collector; none where there is no walk.
pub fn least_to_collector(table: &Table) -> Vec<Option<u64>> {
    least_over(table, |(tail, head, _)| (head, tail))
}

/// From 0 at the origin, relaxes every arc from its near end to its far end until nothing changes.
fn least_over(table: &Table, near_and_far: fn(Arc) -> (u16, u16)) -> Vec<Option<u64>> {
    let mut least: Vec<Option<u64>> = vec![None; table.n as usize];
    least[table.origin as usize] = Some(0);
    let mut changed = true;
    while changed {
        changed = false;
        for (_, arc) in present_arcs(table) {
            let (near, far) = near_and_far(arc);
            let through = least[near as usize].map(|distance| distance + arc.2 as u64);
            let known = least[far as usize];
            if through.is_some() && (known.is_none() || through < known) {
                least[far as usize] = through;
                changed = true;
            }
        }
    }
    least
}

fn demand(holds: bool, what: impl Fn() -> String) -> Result<(), String> {
    if holds { Ok(()) } else { Err(what()) }
}

/// Checks a plan whose number is 0 or 8.
pub fn check(table: &Table, plan: &Planned, filled: &Filled) -> Result<(), String> {
    let least = least_distances(table);
    check_answer(table, plan, filled, &least)?;
    check_nodes(table, plan, filled, &least, &earliest_arcs(table, &least))?;
    check_prices(table, filled)?;
    (0..table.n as usize)
        .filter(|&node| filled.distances[node] != NO_DISTANCE)
        .try_for_each(|node| check_walk(table, filled, node))
}

/// Checks what was answered to a limit where there is no refusal.
pub fn check_limit(table: &Table, node: u16, limit: u64, answer: &Within) -> Result<(), String> {
    let least = least_distances(table)[node as usize];
    let within = least.map_or(false, |distance| distance <= limit) as u32;
    let expected = (0, 0, within);
    let right = (answer.number, answer.place, answer.within) == expected;
    demand(right, || format!("least distance {least:?}: number, place and within must be {expected:?}"))
}

fn check_answer(table: &Table, plan: &Planned, filled: &Filled, least: &[Option<u64>]) -> Result<(), String> {
    let n = table.n as u64;
    let without_walk = table.wanted.iter().position(|&node| least[node as usize].is_none());
    let expected = without_walk.map_or((0, 0), |index| (8, index as u32));
    demand((plan.number, plan.place) == expected, || format!("number and place must be {expected:?}"))?;
    let counted = plan.contractions + plan.extensions + plan.deletions;
    demand(plan.iterations == counted, || "the counts do not add up".to_string())?;
    let scans = plan.contractions + plan.deletions..=plan.iterations;
    demand(scans.contains(&plan.scans), || format!("{} scans, not among {scans:?}", plan.scans))?;
    let most = 2 * (n * n * n - n) / 3 + 3 * (n - 1);
    demand(plan.iterations <= most, || format!("more than {most} iterations"))?;
    let reached: Vec<u64> = filled.distances.iter().copied().filter(|&d| d != NO_DISTANCE).collect();
    demand(plan.reached as usize == reached.len(), || format!("{} nodes have a distance", reached.len()))?;
    let farthest = reached.iter().max().copied();
    demand(farthest == Some(plan.horizon), || format!("the largest distance is {farthest:?}"))?;
    let tree_arcs = filled.marks.iter().filter(|&&mark| mark == 3).count();
    demand(tree_arcs + 1 == reached.len(), || format!("{tree_arcs} arcs are marked 3"))?;
    demand(filled.marks.iter().all(|&mark| mark <= 3), || "an arc has none of the four marks".to_string())?;
    let mut down = (0..table.tails.len()).filter(|&position| table.lengths[position] == DOWN);
    demand(down.all(|position| filled.marks[position] == 1), || "an arc is down and its mark is not 1".to_string())
}

/// For each node but the origin the earliest listed arc into it that attains the least distance.
fn earliest_arcs(table: &Table, least: &[Option<u64>]) -> Vec<u16> {
    let mut earliest = vec![NO_ARC; table.n as usize];
    for (position, (tail, head, length)) in present_arcs(table).into_iter().rev() {
        let attained = least[tail as usize].map(|distance| distance + length as u64);
        if attained.is_some() && attained == least[head as usize] && head != table.origin {
            earliest[head as usize] = position as u16;
        }
    }
    earliest
}

fn check_nodes(
    table: &Table, plan: &Planned, filled: &Filled, least: &[Option<u64>], earliest: &[u16],
) -> Result<(), String> {
    for node in 0..table.n as usize {
        let distance = filled.distances[node];
        if distance == NO_DISTANCE {
            let wanted = table.wanted.contains(&(node as u16)) && least[node].is_some();
            let nearer = least[node].map_or(false, |known| known < plan.horizon);
            demand(!wanted && !nearer, || format!("node {node} has a walk and must be reached"))?;
        } else {
            demand(least[node] == Some(distance), || format!("node {node}: least distance {:?}", least[node]))?;
            demand(filled.tree[node] == earliest[node], || format!("node {node}: earliest arc {}", earliest[node]))?;
        }
    }
    Ok(())
}

/// On every arc that is not down the tail's price is at most the length + the head's price.
fn check_prices(table: &Table, filled: &Filled) -> Result<(), String> {
    for (position, (tail, head, length)) in present_arcs(table) {
        let (tail_price, head_price) = (filled.prices[tail as usize], filled.prices[head as usize]);
        demand(tail_price <= length as u64 + head_price, || format!("price rule broken on arc {position}"))?;
    }
    Ok(())
}

/// The returned walk is as long as the distance and as the prices differ, with equality on its arcs.
fn check_walk(table: &Table, filled: &Filled, node: usize) -> Result<(), String> {
    let mut at = node;
    let mut total = 0;
    for _ in 0..table.n {
        if at == table.origin as usize {
            let by_prices = filled.prices[at] - filled.prices[node];
            let right = total == filled.distances[node] && total == by_prices;
            return demand(right, || format!("node {node}: walk {total}, prices {by_prices}"));
        }
        let arc = filled.tree[at] as usize;
        demand(table.heads.get(arc) == Some(&(at as u16)), || format!("no tree arc into {at}"))?;
        demand(table.lengths[arc] != DOWN, || format!("arc {arc} of a returned walk is down"))?;
        let (tail, length) = (table.tails[arc] as usize, table.lengths[arc] as u64);
        let tight = filled.prices[tail] == length + filled.prices[at];
        demand(tight, || format!("prices unequal on arc {arc} of a returned walk"))?;
        total += length;
        at = tail;
    }
    Err(format!("node {node}: its tree arcs do not lead to the origin"))
}

// To the collector.

/// Checks a plan to a collector whose number is 0 or 8.
pub fn check_to_collector(table: &Table, plan: &Planned, filled: &Filled) -> Result<(), String> {
    let least = least_to_collector(table);
    check_answer(table, plan, filled, &least)?;
    check_nodes(table, plan, filled, &least, &earliest_arcs_out(table, &least))?;
    check_prices_to_collector(table, filled)?;
    check_marks_to_collector(table, filled)?;
    (0..table.n as u16)
        .filter(|&node| filled.distances[node as usize] != NO_DISTANCE)
        .try_for_each(|node| walk_to_collector(table, filled, node).map(drop))
}

/// Checks the nodes that were listed from a reached node: those of its walk.
pub fn check_listed_to_collector(table: &Table, filled: &Filled, node: u16, listed: &[u16]) -> Result<(), String> {
    let walk = walk_to_collector(table, filled, node)?;
    demand(listed == walk, || format!("listed from node {node}: {listed:?}, its walk is {walk:?}"))
}

/// For each node but the collector the earliest listed arc out of it that attains the least distance.
fn earliest_arcs_out(table: &Table, least: &[Option<u64>]) -> Vec<u16> {
    let arcs = present_arcs(table);
    let earliest = |node: u16| {
        let attains = |&&(_, (tail, head, length)): &&(usize, Arc)| {
            let through = least[head as usize].map(|distance| distance + length as u64);
            tail == node && through.is_some() && through == least[node as usize]
        };
        arcs.iter().find(attains).map_or(NO_ARC, |arc| arc.0 as u16)
    };
    (0..table.n as u16).map(|node| if node == table.origin { NO_ARC } else { earliest(node) }).collect()
}

/// On every arc that is not down the head's price is at most the length + the tail's price.
fn check_prices_to_collector(table: &Table, filled: &Filled) -> Result<(), String> {
    for (position, (tail, head, length)) in present_arcs(table) {
        let (tail_price, head_price) = (filled.prices[tail as usize], filled.prices[head as usize]);
        demand(head_price <= length as u64 + tail_price, || format!("price rule broken on arc {position}"))?;
    }
    Ok(())
}

/// An arc out of a node is kept where no other into a reached node gives less, nor as much at an earlier position. Kept
/// arcs are marked 3 out of a reached node, else 2; others 1 where an end is reached, else 0.
fn check_marks_to_collector(table: &Table, filled: &Filled) -> Result<(), String> {
    let reached = |node: u16| filled.distances[node as usize] != NO_DISTANCE;
    let mut kept: Vec<Option<(u64, usize)>> = vec![None; table.n as usize];
    for (position, (tail, head, length)) in present_arcs(table) {
        let offer = (filled.distances[head as usize].saturating_add(length as u64), position);
        if reached(head) && tail != table.origin && kept[tail as usize].map_or(true, |former| offer < former) {
            kept[tail as usize] = Some(offer);
        }
    }
    for (position, (tail, head, _)) in present_arcs(table) {
        let is_kept = kept[tail as usize].map_or(false, |(_, arc)| arc == position);
        let mark = match (is_kept, reached(tail), reached(head)) {
            (true, true, _) => 3,
            (true, false, _) => 2,
            (false, false, false) => 0,
            _ => 1,
        };
        demand(filled.marks[position] == mark, || format!("the mark of arc {position} must be {mark}"))?;
    }
    Ok(())
}

/// The nodes of the walk that a reached node's entries give, up to the collector. It is as long as the distance, with
/// equal prices on its arcs.
fn walk_to_collector(table: &Table, filled: &Filled, node: u16) -> Result<Vec<u16>, String> {
    let mut nodes = vec![node];
    let mut total = 0;
    let mut at = node;
    while at != table.origin {
        demand(nodes.len() < table.n as usize, || format!("node {node}: its tree arcs do not lead to the collector"))?;
        let arc = filled.tree[at as usize] as usize;
        demand(table.tails.get(arc) == Some(&at), || format!("no tree arc out of {at}"))?;
        demand(table.lengths[arc] != DOWN, || format!("arc {arc} of a returned walk is down"))?;
        let (head, length) = (table.heads[arc], table.lengths[arc] as u64);
        let tight = filled.prices[head as usize] == length + filled.prices[at as usize];
        demand(tight, || format!("prices unequal on arc {arc} of a returned walk"))?;
        total += length;
        nodes.push(head);
        at = head;
    }
    demand(total == filled.distances[node as usize], || format!("node {node}: walk {total}"))?;
    Ok(nodes)
}

// Keeping a path.

/// The total of the walk through the nodes by the shortest arcs; none where there is no such walk.
fn total(table: &Table, nodes: &[u16]) -> Option<u64> {
    let mut shortest = BTreeMap::new();
    for (_, (tail, head, length)) in present_arcs(table) {
        let least = shortest.entry((tail, head)).or_insert(length);
        *least = length.min(*least);
    }
    nodes.windows(2).map(|step| shortest.get(&(step[0], step[1])).map(|&length| length as u64)).sum()
}

/// Checks which path is kept beside the fresh one of a finished plan, whose total is the least distance: the standing one
/// exactly where it is a walk between the same two nodes and its total is the least distance as well.
pub fn check_kept(
    table: &Table, least: Option<u64>, standing: &[u16], fresh: &[u16], kept: &Kept,
) -> Result<(), String> {
    let fresh_total = total(table, fresh);
    demand(least.is_some() && fresh_total == least, || format!("the fresh path's total is {fresh_total:?}, not {least:?}"))?;
    let same_ends = standing.first() == fresh.first() && standing.last() == fresh.last();
    let stands = same_ends && total(table, standing) == least;
    let count = if stands { standing.len() } else { fresh.len() } as u32;
    let expected = Kept { number: 0, place: 0, standing: stands as u32, count };
    demand(*kept == expected, || format!("least distance {least:?}: {kept:?}, must be {expected:?}"))
}
