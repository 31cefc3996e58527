//! A test load in ordinary Rust, made as the library makes it: its arcs are counted first, then put.

use crate::tables::{Load, Table};

fn each_arc(n: usize, load: Load, mut put: impl FnMut(usize, usize, u32)) {
    let mut state = load.seed;
    let mut draw = || {
        state = state.wrapping_mul(1_664_525).wrapping_add(1_013_904_223);
        state
    };
    for tail in 0..n {
        for head in 0..n {
            if tail != head && draw() / 65_536 < load.chance {
                put(tail, head, 1 + draw() % load.largest);
            }
        }
    }
}

/// Puts the load at the starts of the table's columns, where there is room, and gives how many arcs it has.
pub fn make(load: Load, table: &mut Table) -> usize {
    let mut arcs = 0;
    each_arc(table.n, load, |_, _, _| arcs += 1);
    if arcs > table.tails.len() {
        return arcs;
    }
    let mut place = 0;
    each_arc(table.n, load, |tail, head, length| {
        table.tails[place] = tail as u16;
        table.heads[place] = head as u16;
        table.lengths[place] = length;
        place += 1;
    });
    arcs
}
