//! Dijkstra's algorithm with the standard library's binary heap, on linked out-arc lists.

use crate::tables::Table;
use std::cmp::Reverse;
use std::collections::BinaryHeap;

const NONE: u16 = u16::MAX;

/// Distances from node 0; with a target it ends when the target's distance is final.
pub fn distances(table: &Table, target: Option<u16>) -> Vec<u64> {
    let mut first = vec![NONE; table.n];
    let mut next = vec![NONE; table.tails.len()];
    for (arc, &tail) in table.tails.iter().enumerate().rev() {
        next[arc] = first[tail as usize];
        first[tail as usize] = arc as u16;
    }
    let mut distances = vec![u64::MAX; table.n];
    let mut heap = BinaryHeap::from([Reverse((0, 0))]);
    distances[0] = 0;
    while let Some(Reverse((distance, node))) = heap.pop() {
        if distance > distances[node as usize] {
            continue;
        }
        if Some(node) == target {
            break;
        }
        let mut arc = first[node as usize];
        while arc != NONE {
            let head = table.heads[arc as usize];
            let through = distance + table.lengths[arc as usize] as u64;
            if through < distances[head as usize] {
                distances[head as usize] = through;
                heap.push(Reverse((through, head)));
            }
            arc = next[arc as usize];
        }
    }
    distances
}
