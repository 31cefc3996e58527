//! The tables that are measured. The origin is node 0.

use crate::abi::MOST_ARCS;
use crate::library;

pub struct Table {
    pub n: usize,
    pub tails: Vec<u16>,
    pub heads: Vec<u16>,
    pub lengths: Vec<u32>,
}

/// The numbers of a test load, beside the number of nodes.
#[derive(Clone, Copy)]
pub struct Load {
    pub seed: u32,
    pub chance: u32,
    pub largest: u32,
}

pub const LOAD: Load = Load { seed: 2_026, chance: 375, largest: 1_000 };

pub struct Family {
    pub name: &'static str,
    pub make: fn(usize) -> Table,
    pub n: usize,
}

pub const FAMILIES: [Family; 9] = [
    Family { name: "sparse", make: sparse, n: 1_024 },
    Family { name: "dense", make: dense, n: 77 },
    Family { name: "star", make: star, n: 1_024 },
    Family { name: "two hubs", make: two_hubs, n: 1_024 },
    Family { name: "chain", make: chain, n: 1_024 },
    Family { name: "chain with branches", make: chain_with_branches, n: 1_024 },
    Family { name: "ring, lengths 4,294,967,294", make: ring, n: 1_024 },
    Family { name: "grid", make: grid, n: 1_024 },
    Family { name: "test load", make: test_load, n: 1_024 },
];

/// Numbers from a fixed seed (the generator of Numerical Recipes, upper bits).
struct Draws(u32);

impl Draws {
    fn below(&mut self, limit: usize) -> usize {
        self.0 = self.0.wrapping_mul(1_664_525).wrapping_add(1_013_904_223);
        (self.0 >> 8) as usize % limit
    }
}

fn table(n: usize, arcs: Vec<(usize, usize, u32)>) -> Table {
    Table {
        n,
        tails: arcs.iter().map(|arc| arc.0 as u16).collect(),
        heads: arcs.iter().map(|arc| arc.1 as u16).collect(),
        lengths: arcs.iter().map(|arc| arc.2).collect(),
    }
}

/// Adds random lengths from 1 to 1,000.
fn with_lengths(n: usize, ends: impl Iterator<Item = (usize, usize)>) -> Table {
    let mut draws = Draws(7);
    table(n, ends.map(|(tail, head)| (tail, head, 1 + draws.below(1_000) as u32)).collect())
}

/// A random tree from node 0 and random arcs, 6,000 arcs for 1,024 nodes.
pub fn sparse(n: usize) -> Table {
    let mut draws = Draws(1);
    let tree: Vec<(usize, usize)> = (1..n).map(|node| (draws.below(node), node)).collect();
    let others: Vec<(usize, usize)> = (n - 1..n * 6_000 / 1_024).map(|_| (draws.below(n), draws.below(n))).collect();
    with_lengths(n, tree.into_iter().chain(others))
}

/// One node with as many loops as there may be: where a step of a path looks at the most arcs.
pub fn loops() -> Table {
    with_lengths(1, (0..6_000).map(|_| (0, 0)))
}

fn dense(n: usize) -> Table {
    with_lengths(n, (0..n * n).map(|pair| (pair / n, pair % n)).filter(|pair| pair.0 != pair.1))
}

fn star(n: usize) -> Table {
    with_lengths(n, (1..n).map(|node| (0, node)))
}

/// Two nodes with arcs to all others, and an arc back to the second hub from each.
fn two_hubs(n: usize) -> Table {
    with_lengths(n, (2..n).flat_map(|node| [(0, node), (node, 1), (1, node)]))
}

pub fn chain(n: usize) -> Table {
    table(n, (1..n).map(|node| (node - 1, node, 1)).collect())
}

/// A chain of half the nodes; from each of them an arc to one of the others, longer than the chain.
fn chain_with_branches(n: usize) -> Table {
    let half = n / 2;
    let chain = (1..half).map(|node| (node - 1, node, 1));
    let branches = (half..n).map(|node| (node - half, node, n as u32));
    table(n, chain.chain(branches).collect())
}

fn ring(n: usize) -> Table {
    const LONGEST: u32 = u32::MAX - 1;
    table(n, (0..n).flat_map(|node| [(node, (node + 1) % n, LONGEST), ((node + 1) % n, node, LONGEST)]).collect())
}

/// A square grid with arcs both ways between neighbours.
pub fn grid(n: usize) -> Table {
    let width = (1..).find(|width| width * width >= n).unwrap_or(1);
    let right = (0..n).filter(move |node| (node + 1) % width != 0 && node + 1 < n).map(|node| (node, node + 1));
    let down = (0..n).filter(move |node| node + width < n).map(move |node| (node, node + width));
    with_lengths(n, right.chain(down).flat_map(|(a, b)| [(a, b), (b, a)]))
}

/// Columns of n nodes with room for a test load.
pub fn room(n: usize) -> Table {
    Table { n, tails: vec![0; MOST_ARCS], heads: vec![0; MOST_ARCS], lengths: vec![0; MOST_ARCS] }
}

/// The library's own test load, 5,916 arcs for 1,024 nodes; some of them have no walk from node 0.
fn test_load(n: usize) -> Table {
    let mut table = room(n);
    let made = library::make(LOAD, &mut table);
    assert_eq!(made.number, 0, "the load is made");
    table.tails.truncate(made.arcs as usize);
    table.heads.truncate(made.arcs as usize);
    table.lengths.truncate(made.arcs as usize);
    table
}
