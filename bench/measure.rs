//! Times of the planners on one table, and the stack that the library's calls need.

use crate::abi::{self, Kept, Planned, ReadBuffers, LONGEST_FILE, MOST_ARCS, MOST_WANTED};
use crate::auction::{self, Counts, Plan};
use crate::dijkstra;
use crate::library::{self, nanoseconds, Peer};
use crate::load;
use crate::tables::{self, Table, LOAD};
use std::ffi::c_void;
use std::mem::ManuallyDrop;

/// Nanoseconds of one call of each, and the auction's iterations and scans.
pub struct Times {
    pub iterations: u64,
    pub scans: u64,
    pub library: f64,
    /// The library before, if one was given.
    pub before: Option<f64>,
    pub auction: f64,
    pub heap: f64,
    pub lemon: f64,
    pub boost: f64,
}

/// Takes a call's answer, so that the compiler cannot leave the call out.
fn finish<T>(answer: T) {
    let answer = ManuallyDrop::new(answer);
    drop(ManuallyDrop::into_inner(unsafe { std::ptr::read_volatile(&answer) }));
}

const REPETITIONS: usize = 15;

/// One repetition calls often enough to last about this many nanoseconds.
const REPETITION: u64 = 3_000_000;

fn median(mut times: Vec<f64>) -> f64 {
    times.sort_by(f64::total_cmp);
    times[times.len() / 2]
}

/// Nanoseconds for each call: the median of the repetitions, which take turns.
fn medians(calls: &mut [&mut dyn FnMut()]) -> Vec<f64> {
    let rounds: Vec<u64> = calls.iter_mut().map(|call| rounds_of(&mut **call)).collect();
    let mut times: Vec<Vec<f64>> = calls.iter().map(|_| Vec::new()).collect();
    for _ in 0..REPETITIONS {
        for (index, call) in calls.iter_mut().enumerate() {
            let start = nanoseconds();
            (0..rounds[index]).for_each(|_| call());
            times[index].push((nanoseconds() - start) as f64 / rounds[index] as f64);
        }
    }
    times.into_iter().map(median).collect()
}

/// How many calls fill a repetition; the call also warms up.
fn rounds_of(call: &mut dyn FnMut()) -> u64 {
    call();
    let start = nanoseconds();
    call();
    (REPETITION / (nanoseconds() - start).max(1)).clamp(1, 10_000)
}

/// Measures one table for all nodes (no target) or one node wanted, after checking that all agree.
pub fn times(table: &Table, target: Option<u16>) -> Times {
    let wanted: Vec<u16> = target.map_or((0..table.n as u16).collect(), |node| vec![node]);
    let (mut plan, mut other, mut third) = (Plan::new(table), Plan::new(table), Plan::new(table));
    let (lemon, boost) = (Peer::lemon(table), Peer::boost(table));
    let Planned { iterations, scans, .. } = check(table, &wanted, target, (&lemon, &boost));
    let mut by_library = || finish(library::plan(table, &wanted, &mut plan));
    let mut by_auction = || finish(auction::plan(table, &wanted, &mut other));
    let mut by_heap = || finish(dijkstra::distances(table, target));
    let (mut by_lemon, mut by_boost) = (|| lemon.run(target), || boost.run(target));
    let mut calls: Vec<&mut dyn FnMut()> =
        vec![&mut by_library, &mut by_auction, &mut by_heap, &mut by_lemon, &mut by_boost];
    let before = library::before();
    let mut by_before = || {
        if let Some(function) = before {
            finish(library::plan_by(function, table, &wanted, &mut third))
        }
    };
    if before.is_some() {
        calls.push(&mut by_before);
    }
    let times = medians(&mut calls);
    let (library, auction, heap, lemon, boost) = (times[0], times[1], times[2], times[3], times[4]);
    Times { iterations, scans, library, before: times.get(5).copied(), auction, heap, lemon, boost }
}

fn check(table: &Table, wanted: &[u16], target: Option<u16>, peers: (&Peer, &Peer)) -> Planned {
    let (mut plan, mut other) = (Plan::new(table), Plan::new(table));
    let answer = library::plan(table, wanted, &mut plan);
    assert!(answer.number == 0 || answer.number == 8, "the table is not turned down");
    let counts = Counts {
        contractions: answer.contractions,
        extensions: answer.extensions,
        deletions: answer.deletions,
        scans: answer.scans,
    };
    assert_eq!(Some(counts), auction::plan(table, wanted, &mut other));
    assert!(plan.distances == other.distances && plan.prices == other.prices);
    assert!(plan.tree == other.tree && plan.marks == other.marks);
    if let Some(function) = library::before() {
        let former = library::plan_by(function, table, wanted, &mut other);
        assert_eq!((former.number, former.iterations), (answer.number, answer.iterations));
        assert!(plan.distances == other.distances && plan.prices == other.prices);
        assert!(plan.tree == other.tree && plan.marks == other.marks);
    }
    let heap = dijkstra::distances(table, target);
    peers.0.run(target);
    peers.1.run(target);
    for &node in wanted {
        let distance = plan.distances[node as usize];
        assert_eq!(distance, heap[node as usize]);
        assert_eq!(distance, peers.0.distance(node));
        assert_eq!(distance, peers.1.distance(node));
    }
    answer
}

/// The node in the middle when all are ordered by distance.
pub fn middle_node(table: &Table) -> u16 {
    let distances = dijkstra::distances(table, None);
    let mut nodes: Vec<u16> = (0..table.n as u16).collect();
    nodes.sort_by_key(|&node| distances[node as usize]);
    nodes[nodes.len() / 2]
}

/// Nanoseconds of keeping a path of so many nodes, and of the plan for its last node.
pub struct Keeping {
    pub nodes: usize,
    pub keep: f64,
    pub plan: f64,
}

/// The path to a node as a plan for that node lists it.
pub fn path_to(table: &Table, node: u16) -> Vec<u16> {
    let mut plan = Plan::new(table);
    library::plan(table, &[node], &mut plan);
    let mut path = vec![0; table.n];
    let listed = library::list(table, node, &plan.tree, &mut path);
    path.truncate(listed.count as usize);
    path
}

/// Measures keeping a path beside itself, so that all of both lists is looked at.
pub fn keeping(table: &Table, path: &[u16]) -> Keeping {
    let stays = Kept { standing: 1, count: path.len() as u32, ..Kept::default() };
    assert_eq!(library::keep(table, path, path), stays);
    let wanted = [path[path.len() - 1]];
    let mut plan = Plan::new(table);
    let mut by_keeping = || finish(library::keep(table, path, path));
    let mut by_planning = || finish(library::plan(table, &wanted, &mut plan));
    let times = medians(&mut [&mut by_keeping, &mut by_planning]);
    Keeping { nodes: path.len(), keep: times[0], plan: times[1] }
}

/// Nanoseconds of making a test load of so many arcs, and of the same in ordinary Rust.
pub struct Making {
    pub arcs: usize,
    pub library: f64,
    pub plain: f64,
}

pub fn making(n: usize) -> Making {
    let (mut table, mut other) = (tables::room(n), tables::room(n));
    let arcs = library::make(LOAD, &mut table).arcs as usize;
    assert_eq!(arcs, load::make(LOAD, &mut other));
    assert!(table.tails == other.tails && table.heads == other.heads && table.lengths == other.lengths);
    let mut by_library = || finish(library::make(LOAD, &mut table));
    let mut by_plain = || finish(load::make(LOAD, &mut other));
    let times = medians(&mut [&mut by_library, &mut by_plain]);
    Making { arcs, library: times[0], plain: times[1] }
}

/// Bytes of stack that the nine functions need.
pub struct Stack {
    pub plan: usize,
    pub plan_to_collector: usize,
    pub within: usize,
    pub list: usize,
    pub list_to_collector: usize,
    pub keep: usize,
    pub read: usize,
    pub write: usize,
    pub make: usize,
}

struct Work<'a> {
    call: &'a mut dyn FnMut(),
}

extern "C" fn run_work(work: *mut c_void) {
    let work = unsafe { &mut *(work as *mut Work) };
    (work.call)();
}

/// What a call and its caller's frame use. The first call binds the functions.
fn used_by(call: &mut dyn FnMut()) -> usize {
    call();
    let mut work = Work { call };
    let used = unsafe { library::stack_used(run_work, &mut work as *mut Work as *mut c_void) };
    assert!(used > 0, "the painted stack could not be used");
    used
}

/// The stack used on the largest table, every node wanted, or a sender.
pub fn stack(table: &Table) -> Stack {
    let wanted: Vec<u16> = (0..table.n as u16).collect();
    let mut plan = Plan::new(table);
    let plan_stack = used_by(&mut || finish(library::plan(table, &wanted, &mut plan)));
    let mut collected = Plan::new(table);
    let collector_stack = used_by(&mut || finish(library::plan_to_collector(table, &wanted, &mut collected)));
    let last = wanted[wanted.len() - 1];
    let mut path = vec![0; table.n];
    let route = path_to(table, last);
    let mut file = vec![0; LONGEST_FILE];
    let length = library::write(table, &wanted, &mut file).length as usize;
    let written = file[..length].to_vec();
    let (mut tails, mut heads, mut lengths) = (vec![0; MOST_ARCS], vec![0; MOST_ARCS], vec![0; MOST_ARCS]);
    let mut nodes = vec![0; MOST_WANTED];
    let mut read = || {
        let out = ReadBuffers { tails: &mut tails, heads: &mut heads, lengths: &mut lengths, wanted: &mut nodes };
        finish(abi::read_link_file(&written, out))
    };
    let mut room = tables::room(table.n);
    Stack {
        plan: plan_stack,
        plan_to_collector: collector_stack,
        within: used_by(&mut || finish(library::within(table, last, u64::MAX))),
        list: used_by(&mut || finish(library::list(table, last, &plan.tree, &mut path))),
        list_to_collector: used_by(&mut || finish(library::list_to_collector(table, last, &collected.tree, &mut path))),
        keep: used_by(&mut || finish(library::keep(table, &route, &route))),
        read: used_by(&mut read),
        write: used_by(&mut || finish(library::write(table, &wanted, &mut file))),
        make: used_by(&mut || finish(library::make(LOAD, &mut room))),
    }
}
