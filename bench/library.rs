//! The library's functions on the benchmark's tables, and the C and C++ functions of this folder.

use crate::abi::{self, Columns, Kept, Listed, LoadBuffers, Made, PlanBuffers, Planned, Within, Written};
use crate::auction::Plan;
use crate::tables::{Load, Table};
use std::ffi::c_void;

extern "C" {
    fn lemon_new(n: usize, m: usize, tails: *const u16, heads: *const u16, lengths: *const u32) -> *mut c_void;
    fn lemon_run(made: *mut c_void, target: usize);
    fn lemon_distance(made: *mut c_void, node: usize) -> u64;
    fn lemon_free(made: *mut c_void);
    fn boost_new(n: usize, m: usize, tails: *const u16, heads: *const u16, lengths: *const u32) -> *mut c_void;
    fn boost_run(made: *mut c_void, target: usize);
    fn boost_distance(made: *mut c_void, node: usize) -> u64;
    fn boost_free(made: *mut c_void);

    fn thread_time() -> u64;
    fn plan_before() -> Option<abi::PlanRoutes>;
    pub fn stack_used(work: extern "C" fn(*mut c_void), argument: *mut c_void) -> usize;
}

/// Processor time of this thread in nanoseconds, so that other programs on the machine weigh little.
pub fn nanoseconds() -> u64 {
    unsafe { thread_time() }
}

fn columns(table: &Table) -> Columns<'_> {
    Columns { tails: &table.tails, heads: &table.heads, lengths: &table.lengths }
}

fn buffers(out: &mut Plan) -> PlanBuffers<'_> {
    let Plan { distances, prices, tree, marks } = out;
    PlanBuffers { distances, prices, tree, marks }
}

pub fn plan(table: &Table, wanted: &[u16], out: &mut Plan) -> Planned {
    abi::plan_routes(table.n as u32, 0, columns(table), wanted, buffers(out))
}

pub fn plan_to_collector(table: &Table, senders: &[u16], out: &mut Plan) -> Planned {
    abi::plan_to_collector(table.n as u32, 0, columns(table), senders, buffers(out))
}

/// The library before, if one was given: an older one fills only the fields of its answer that it has.
pub fn before() -> Option<abi::PlanRoutes> {
    unsafe { plan_before() }
}

pub fn plan_by(function: abi::PlanRoutes, table: &Table, wanted: &[u16], out: &mut Plan) -> Planned {
    abi::plan_routes_by(function, table.n as u32, 0, columns(table), wanted, buffers(out))
}

pub fn within(table: &Table, node: u16, limit: u64) -> Within {
    abi::within_limit(table.n as u32, 0, node, limit, columns(table))
}

pub fn list(table: &Table, node: u16, tree: &[u16], output: &mut [u16]) -> Listed {
    abi::list_path(0, node, &table.tails, &table.heads, tree, output)
}

pub fn list_to_collector(table: &Table, node: u16, tree: &[u16], output: &mut [u16]) -> Listed {
    abi::list_to_collector(0, node, &table.tails, &table.heads, tree, output)
}

pub fn keep(table: &Table, standing: &[u16], fresh: &[u16]) -> Kept {
    abi::keep_path(table.n as u32, columns(table), standing, fresh)
}

pub fn write(table: &Table, wanted: &[u16], output: &mut [u8]) -> Written {
    abi::write_link_file(table.n as u32, 0, columns(table), wanted, output)
}

/// Makes a test load of the table's number of nodes at the starts of its columns.
pub fn make(load: Load, table: &mut Table) -> Made {
    let Table { n, tails, heads, lengths } = table;
    abi::make_load(*n as u32, load.seed, load.chance, load.largest, LoadBuffers { tails, heads, lengths })
}

/// A graph of LEMON or Boost, made from a table.
pub struct Peer {
    made: *mut c_void,
    run: unsafe extern "C" fn(*mut c_void, usize),
    distance: unsafe extern "C" fn(*mut c_void, usize) -> u64,
    free: unsafe extern "C" fn(*mut c_void),
}

impl Peer {
    pub fn lemon(table: &Table) -> Peer {
        let (tails, heads, lengths) = (table.tails.as_ptr(), table.heads.as_ptr(), table.lengths.as_ptr());
        let made = unsafe { lemon_new(table.n, table.tails.len(), tails, heads, lengths) };
        Peer { made, run: lemon_run, distance: lemon_distance, free: lemon_free }
    }

    pub fn boost(table: &Table) -> Peer {
        let (tails, heads, lengths) = (table.tails.as_ptr(), table.heads.as_ptr(), table.lengths.as_ptr());
        let made = unsafe { boost_new(table.n, table.tails.len(), tails, heads, lengths) };
        Peer { made, run: boost_run, distance: boost_distance, free: boost_free }
    }

    pub fn run(&self, target: Option<u16>) {
        unsafe { (self.run)(self.made, target.map_or(usize::MAX, usize::from)) }
    }

    pub fn distance(&self, node: u16) -> u64 {
        unsafe { (self.distance)(self.made, node as usize) }
    }
}

impl Drop for Peer {
    fn drop(&mut self) {
        unsafe { (self.free)(self.made) }
    }
}
