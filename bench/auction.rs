//! The same auction in ordinary Rust: linked out-arc lists and arrays, nothing allocated while it runs.
//! It shares no code with the library and is here to be compared with it.

use crate::tables::Table;

const NODES: usize = 1_024;
const ARCS: usize = 6_000;
const NONE: u16 = u16::MAX;
const NO_BOUND: u64 = u64::MAX;
const DOWN: u32 = u32::MAX;

/// What a plan fills.
#[derive(Default)]
pub struct Plan {
    pub distances: Vec<u64>,
    pub prices: Vec<u64>,
    pub tree: Vec<u16>,
    pub marks: Vec<u8>,
}

impl Plan {
    pub fn new(table: &Table) -> Plan {
        let (n, m) = (table.n, table.tails.len());
        Plan { distances: vec![0; n], prices: vec![0; n], tree: vec![0; n], marks: vec![0; m] }
    }
}

struct State<'a> {
    table: &'a Table,
    /// The first outgoing arc of each node, and the arc after each arc with the same tail; those that are down are left out.
    first: [u16; NODES],
    next: [u16; ARCS],
    price: [u64; NODES],
    bound: [u64; NODES],
    kept: [u16; NODES],
    reached: [bool; NODES],
    deleted: [bool; NODES],
    missing: [bool; NODES],
    missing_count: usize,
    /// The child of each node's best bid at its last scan; none where it has to scan again.
    remembered: [u16; NODES],
    path: [u16; NODES],
    depth: usize,
    counts: Counts,
}

/// How many iterations of each kind a run makes, and how many of them scan.
#[derive(Clone, Copy, Debug, Default, PartialEq)]
pub struct Counts {
    pub contractions: u64,
    pub extensions: u64,
    pub deletions: u64,
    pub scans: u64,
}

/// Runs the auction and gives its counts; none for a faulty table.
pub fn plan(table: &Table, wanted: &[u16], out: &mut Plan) -> Option<Counts> {
    if faulty(table) {
        return None;
    }
    let mut state = State::new(table, wanted);
    state.reach(0);
    while state.missing_count > 0 && state.step() {}
    state.hand_over(out);
    Some(state.counts)
}

fn faulty(table: &Table) -> bool {
    let bad_end = |&node: &u16| node as usize >= table.n;
    let bad_ends = table.tails.iter().any(bad_end) || table.heads.iter().any(bad_end);
    table.n > NODES || table.tails.len() > ARCS || bad_ends || table.lengths.contains(&0)
}

impl State<'_> {
    fn new<'a>(table: &'a Table, wanted: &[u16]) -> State<'a> {
        let mut state = State {
            table,
            first: [NONE; NODES],
            next: [NONE; ARCS],
            price: [0; NODES],
            bound: [NO_BOUND; NODES],
            kept: [NONE; NODES],
            reached: [false; NODES],
            deleted: [false; NODES],
            missing: [false; NODES],
            missing_count: 0,
            remembered: [NONE; NODES],
            path: [0; NODES],
            depth: 1,
            counts: Counts::default(),
        };
        for (arc, &tail) in table.tails.iter().enumerate().rev() {
            if table.lengths[arc] != DOWN {
                state.next[arc] = state.first[tail as usize];
                state.first[tail as usize] = arc as u16;
            }
        }
        for &node in wanted {
            state.missing_count += !state.missing[node as usize] as usize;
            state.missing[node as usize] = true;
        }
        state.bound[0] = 0;
        state
    }

    fn reach(&mut self, node: usize) {
        self.reached[node] = true;
        self.missing_count -= self.missing[node] as usize;
        let mut arc = self.first[node];
        while arc != NONE {
            let head = self.table.heads[arc as usize] as usize;
            let bound = self.bound[node] + self.table.lengths[arc as usize] as u64;
            let better = bound < self.bound[head] || bound == self.bound[head] && arc < self.kept[head];
            if better && !self.reached[head] {
                if self.kept[head] != NONE {
                    self.remembered[self.table.tails[self.kept[head] as usize] as usize] = NONE;
                }
                self.bound[head] = bound;
                self.kept[head] = arc;
            }
            arc = self.next[arc as usize];
        }
    }

    /// The least of length + child's price and the child; the child is none where there are no children.
    fn best(&self, node: usize) -> (u64, u16) {
        let mut best = (u64::MAX, NONE);
        let mut arc = self.first[node];
        while arc != NONE {
            let head = self.table.heads[arc as usize];
            if self.kept[head as usize] == arc && !self.deleted[head as usize] {
                let value = self.table.lengths[arc as usize] as u64 + self.price[head as usize];
                if value < best.0 {
                    best = (value, head);
                }
            }
            arc = self.next[arc as usize];
        }
        best
    }

    /// One iteration; false where the run stops instead.
    fn step(&mut self) -> bool {
        let node = self.path[self.depth - 1] as usize;
        if self.remembered[node] != NONE {
            self.extend(self.remembered[node]);
            return true;
        }
        let (value, child) = self.best(node);
        if child == NONE && self.depth == 1 {
            return false;
        }
        self.counts.scans += 1;
        self.remembered[node] = child;
        if child == NONE {
            self.deleted[node] = true;
            self.counts.deletions += 1;
            self.shorten();
        } else if self.price[node] < value {
            self.price[node] = value;
            self.counts.contractions += 1;
            self.shorten();
        } else {
            self.extend(child);
        }
        true
    }

    fn extend(&mut self, child: u16) {
        self.path[self.depth] = child;
        self.depth += 1;
        self.counts.extensions += 1;
        if !self.reached[child as usize] {
            self.reach(child as usize);
        }
    }

    /// The terminal node leaves the path, unless it is the origin; the node before it has to scan again.
    fn shorten(&mut self) {
        if self.depth > 1 {
            self.depth -= 1;
            self.remembered[self.path[self.depth - 1] as usize] = NONE;
        }
    }

    fn hand_over(&self, out: &mut Plan) {
        let reached = (0..self.table.n).filter(|&node| self.reached[node]);
        let horizon = reached.map(|node| self.bound[node]).max().unwrap_or(0);
        for node in 0..self.table.n {
            let (distance, price, arc) = match self.reached[node] {
                true => (self.bound[node], horizon - self.bound[node], self.kept[node]),
                false => (u64::MAX, 0, NONE),
            };
            out.distances[node] = distance;
            out.prices[node] = price;
            out.tree[node] = arc;
        }
        for arc in 0..self.table.tails.len() {
            let (tail, head) = (self.table.tails[arc] as usize, self.table.heads[arc] as usize);
            let kept = self.kept[head] as usize == arc;
            out.marks[arc] = match (self.reached[tail], self.reached[head]) {
                _ if self.table.lengths[arc] == DOWN => 1,
                (_, true) => if kept { 3 } else { 1 },
                (true, false) => if kept { 2 } else { 1 },
                (false, false) => 0,
            };
        }
    }
}
