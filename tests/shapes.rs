//! Random tables of many shapes.

use crate::model::RIGHT;
use crate::random::Random;
use crate::rules::*;

#[derive(Clone, Copy, Debug)]
pub enum Shape {
    Scattered,
    Dense,
    Star,
    TwoHubs,
    Stealing,
    Chain,
    ChainWithBranches,
    Ring,
    Grid,
    Layers,
    Parallel,
    TwoParts,
    Load,
}

pub const SHAPES: [Shape; 13] = [
    Shape::Scattered,
    Shape::Dense,
    Shape::Star,
    Shape::TwoHubs,
    Shape::Stealing,
    Shape::Chain,
    Shape::ChainWithBranches,
    Shape::Ring,
    Shape::Grid,
    Shape::Layers,
    Shape::Parallel,
    Shape::TwoParts,
    Shape::Load,
];

/// Tails and heads of a shape on n nodes; node 0 leads to what can be reached.
pub fn ends(random: &mut Random, shape: Shape, n: usize) -> Vec<(usize, usize)> {
    let pairs = |count: usize, random: &mut Random| (0..count).map(|_| (random.below(n), random.below(n))).collect();
    match shape {
        Shape::Scattered => pairs(random.from(0, 6 * n), random),
        Shape::Dense => (0..n * n).map(|pair| (pair / n, pair % n)).filter(|pair| pair.0 != pair.1).collect(),
        Shape::Star => (1..n).flat_map(|node| [(0, node), (node, 0)]).collect(),
        Shape::TwoHubs => (2..n).flat_map(|node| [(0, node), (node, 1), (1, node)]).collect(),
        Shape::Stealing => stealing(n),
        Shape::Chain => (1..n).map(|node| (node - 1, node)).collect(),
        Shape::ChainWithBranches => chain_with_branches(n),
        Shape::Ring => (0..n).flat_map(|node| [(node, (node + 1) % n), ((node + 1) % n, node)]).collect(),
        Shape::Grid => grid(n),
        Shape::Layers => (1..n).flat_map(|node| (1..=4.min(node)).map(move |back| (node - back, node))).collect(),
        Shape::Parallel => (0..random.from(1, 12)).map(|_| (random.below(n.min(3)), random.below(n.min(3)))).collect(),
        Shape::TwoParts => (0..random.from(0, 6 * n)).map(|_| pair_within_part(random, n)).collect(),
        Shape::Load => load_arcs(random, n).into_iter().map(|arc| (arc.0 as usize, arc.1 as usize)).collect(),
    }
}

/// Node 0 leads to a few nodes, and each of them to all others: these hang on one after another of the few.
fn stealing(n: usize) -> Vec<(usize, usize)> {
    let few = (n / 3).clamp(1, 5);
    let first = (1..n.min(few + 1)).map(|node| (0, node));
    first.chain((few + 1..n).flat_map(|node| (1..=few).map(move |near| (near, node)))).collect()
}

/// A chain of the lower half; from each of its nodes an arc to one of the upper half.
fn chain_with_branches(n: usize) -> Vec<(usize, usize)> {
    (1..n).map(|node| (if node <= n / 2 { node - 1 } else { node - n / 2 - 1 }, node)).collect()
}

/// A square grid with arcs both ways between neighbours.
fn grid(n: usize) -> Vec<(usize, usize)> {
    let width = (1..).find(|width| width * width >= n).unwrap_or(1);
    let right = (0..n).filter(|node| (node + 1) % width != 0 && node + 1 < n).map(|node| (node, node + 1));
    let down = (0..n).filter(|node| node + width < n).map(|node| (node, node + width));
    right.chain(down).flat_map(|(a, b)| [(a, b), (b, a)]).collect()
}

/// Both ends in the lower or both in the upper half, or from the upper into the lower.
fn pair_within_part(random: &mut Random, n: usize) -> (usize, usize) {
    let half = (n + 1) / 2;
    let tail = random.below(n);
    let head = if tail < half { random.below(half) } else { random.below(n) };
    (tail, head)
}

/// A chance that gives about so many of the pairs of n nodes an arc.
pub fn chance_of(n: usize, arcs: usize) -> u32 {
    let pairs = (n * (n - 1)).max(1);
    (CERTAIN as usize * arcs.min(pairs) / pairs) as u32
}

/// A test load as the model makes it, from sparse to dense.
fn load_arcs(random: &mut Random, n: usize) -> Vec<Arc> {
    let arcs = random.pick(&[n / 2, n, 2 * n, 3 * n, 5 * n, n * n]).min(5_500);
    let largest = random.pick(&[1, 2, 4, 100, LONGEST_ARC]);
    RIGHT.arcs_of_load(&Load { n: n as u32, seed: random.number() as u32, chance: chance_of(n, arcs), largest })
}

/// One length after another, in one of several styles.
pub fn lengths(random: &mut Random, count: usize) -> Vec<u32> {
    let style = random.below(7);
    let mut length = || match style {
        0 => 1,
        1 => random.from(1, 2),
        2 => random.from(1, 4),
        3 => random.from(1, 100),
        4 => random.from(1, LONGEST_ARC as usize),
        5 => LONGEST_ARC as usize - random.below(3),
        _ => if random.one_in(2) { 1 } else { LONGEST_ARC as usize },
    } as u32;
    (0..count).map(|_| length()).collect()
}

/// Takes arcs down, so many in a hundred.
pub fn take_down(random: &mut Random, table: &mut Table, share: usize) {
    for length in &mut table.lengths {
        if random.below(100) < share {
            *length = DOWN;
        }
    }
}

pub fn wanted(random: &mut Random, n: usize, origin: u16) -> Vec<u16> {
    let all = 0..n as u16;
    match random.below(8) {
        0 => vec![],
        1 => vec![origin],
        2 | 3 => vec![random.below(n) as u16],
        4 => all.collect(),
        5 => {
            let mut nodes: Vec<u16> = all.collect();
            random.shuffle(&mut nodes);
            nodes
        }
        6 if random.one_in(20) => (0..MOST_WANTED).map(|_| random.below(n) as u16).collect(),
        _ => (0..random.from(1, 6)).map(|_| random.below(n) as u16).collect(),
    }
}

/// A load as it is made; its origin is any node.
fn load_table(random: &mut Random, n: usize) -> Table {
    let arcs = load_arcs(random, n);
    let origin = random.below(n) as u16;
    let wanted = wanted(random, n, origin);
    Table::new(n as u32, origin, &arcs, &wanted)
}

/// A table of the shape without a fault: a load, or some arcs doubled, loops added, arcs and nodes in another
/// order, sometimes some arcs down, and sometimes the last node left out of the shape.
pub fn table(random: &mut Random, shape: Shape, n: usize) -> Table {
    if matches!(shape, Shape::Load) {
        return load_table(random, n);
    }
    let connected = if n > 1 && random.one_in(8) { n - 1 } else { n };
    let mut ends = ends(random, shape, connected);
    for _ in 0..random.pick(&[0, 0, 1, 3, 10]) {
        let node = random.below(connected);
        ends.push((node, node));
        ends.push((node, random.below(connected)));
        ends.push(random.pick(&ends));
    }
    if random.one_in(2) {
        random.shuffle(&mut ends);
    }
    ends.truncate(MOST_ARCS);
    let mut names: Vec<u16> = (0..n as u16).collect();
    if random.one_in(2) {
        random.shuffle(&mut names);
    }
    let origin = if random.one_in(4) { random.below(n) as u16 } else { names[0] };
    let lengths = lengths(random, ends.len());
    let wanted = wanted(random, n, origin);
    let named = ends.iter().map(|&(tail, head)| (names[tail], names[head]));
    let arcs: Vec<Arc> = named.zip(lengths).map(|((tail, head), length)| (tail, head, length)).collect();
    let mut table = Table::new(n as u32, origin, &arcs, &wanted);
    let share = random.pick(&[0, 0, 0, 10, 50]);
    take_down(random, &mut table, share);
    table
}
