//! Listing paths: by finished plans, and by random and damaged tree columns. What leads from the origin leads to the
//! collector where tails and heads are exchanged, so each group is there for both.

use super::*;
use crate::compare::{self, plan_filled, Verdict};
use crate::shapes;

pub const GROUPS: &[Group] = &[
    Group { name: "listing: every node of finished plans, every buffer length", run: finished_plans::<FROM_ORIGIN> },
    Group { name: "listing: damaged tree columns", run: damaged::<FROM_ORIGIN> },
    Group { name: "listing: random columns", run: random_columns::<FROM_ORIGIN> },
    Group { name: "listing: limits, cycles and the longest path", run: limits::<FROM_ORIGIN> },
    Group { name: "listing to the collector: finished plans, every buffer length", run: finished_plans::<TO_COLLECTOR> },
    Group { name: "listing to the collector: damaged tree columns", run: damaged::<TO_COLLECTOR> },
    Group { name: "listing to the collector: random columns", run: random_columns::<TO_COLLECTOR> },
    Group { name: "listing to the collector: limits, cycles and the longest path", run: limits::<TO_COLLECTOR> },
];

const FROM_ORIGIN: bool = true;
const TO_COLLECTOR: bool = false;

fn list<const WAY: bool>(entries: &dyn Entries, listing: &Listing, room: usize) -> Verdict {
    match WAY {
        FROM_ORIGIN => compare::list(entries, listing, room),
        TO_COLLECTOR => compare::list_to_collector(entries, &listing.exchanged(), room),
    }
}

fn listing_of(table: &Table, tree: &[u16], node: u16) -> Listing {
    Listing { origin: table.origin, node, tails: table.tails.clone(), heads: table.heads.clone(), tree: tree.to_vec() }
}

fn small_plan(random: &mut Random) -> (Table, Vec<u16>) {
    let shape = random.pick(&shapes::SHAPES);
    let n = random.from(1, 10);
    let table = shapes::table(random, shape, n);
    let tree = plan_filled(&crate::model::RIGHT, &table).1.tree;
    (table, tree)
}

fn finished_plans<const WAY: bool>(entries: &dyn Entries, random: &mut Random) -> Tried {
    let mut tried = 0;
    for _ in 0..1_000 {
        let (table, tree) = small_plan(random);
        for node in 0..=table.n as u16 {
            for room in 0..=tree.len() + 1 {
                list::<WAY>(entries, &listing_of(&table, &tree, node), room)?;
                tried += 1;
            }
        }
    }
    Ok(tried)
}

/// An entry or an end that may lead astray.
fn stray(random: &mut Random, limit: usize) -> u16 {
    let inside = random.below(limit + 1);
    random.pick(&[inside, limit, limit + 1, NO_ARC as usize, NO_ARC as usize - 1]) as u16
}

fn damaged<const WAY: bool>(entries: &dyn Entries, random: &mut Random) -> Tried {
    let tried = 20_000;
    for _ in 0..tried {
        let (table, tree) = small_plan(random);
        let (n, m) = (tree.len(), table.tails.len());
        let mut listing = listing_of(&table, &tree, random.below(n) as u16);
        for _ in 0..random.from(1, 3) {
            match random.below(8) {
                0 => listing.origin = stray(random, n),
                1 => listing.node = stray(random, n),
                2 => drop(listing.tails.pop()),
                3 => listing.tree.truncate(random.below(n + 1)),
                4 if m > 0 => listing.heads[random.below(m)] = stray(random, n),
                5 if m > 0 && listing.tails.len() == m => listing.tails[random.below(m)] = stray(random, n),
                _ if listing.tree.len() == n => listing.tree[random.below(n)] = stray(random, m),
                _ => {}
            }
        }
        list::<WAY>(entries, &listing, random.below(n + 2))?;
    }
    Ok(tried)
}

/// Columns on few nodes, so that cycles and wrong heads are common.
fn random_columns<const WAY: bool>(entries: &dyn Entries, random: &mut Random) -> Tried {
    let tried = 40_000;
    for _ in 0..tried {
        let n = random.from(1, 4);
        let m = random.from(0, 6);
        let tails_below = n + random.pick(&[0, 0, 1]);
        let listing = Listing {
            origin: random.below(n) as u16,
            node: random.below(n) as u16,
            tails: (0..m).map(|_| random.below(tails_below) as u16).collect(),
            heads: (0..m).map(|_| random.below(n) as u16).collect(),
            tree: (0..n).map(|_| random.below(m + 1) as u16).collect(),
        };
        list::<WAY>(entries, &listing, random.from(0, n + 1))?;
    }
    Ok(tried)
}

fn limits<const WAY: bool>(entries: &dyn Entries, _: &mut Random) -> Tried {
    let chain = |n: u16| Listing {
        origin: 0,
        node: n - 1,
        tails: (0..n - 1).collect(),
        heads: (1..n).collect(),
        tree: [NO_ARC].into_iter().chain(0..n - 1).collect(),
    };
    // The arc back from node 1 to the last node closes a cycle without the origin.
    let mut cycle = chain(1_024);
    cycle.tails[0] = 1_023;
    let many = |m: usize| Listing { tails: vec![0; m], heads: vec![1; m], ..chain(2) };
    let origins_entry_set = Listing { node: 0, tree: vec![7, 0], ..chain(2) };
    let uneven = Listing { heads: vec![], ..chain(2) };
    let no_tree = Listing { tree: vec![], ..chain(2) };
    let listings = [chain(1_024), chain(1_025), cycle, many(6_000), many(6_001), origins_entry_set, uneven, no_tree];
    let rooms = [0, 1, 2, 1_023, 1_024, 1_025];
    for listing in &listings {
        rooms.iter().try_for_each(|&room| list::<WAY>(entries, listing, room))?;
    }
    Ok(listings.len() * rooms.len())
}
