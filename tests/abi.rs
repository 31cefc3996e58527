//! The C interface of the library as include/kestrelore.h declares it, for the tests and the benchmark.
//! The tests hold its sizes, offsets and numbers to those of the header (tests/layout.c).
#![allow(dead_code)]

use std::fmt::Write;
use std::mem::{size_of, size_of_val};

pub const MOST_NODES: usize = 1_024;
pub const MOST_ARCS: usize = 6_000;
pub const MOST_WANTED: usize = 1_024;
pub const LONGEST_FILE: usize = 56_055;
pub const DOWN: u32 = 4_294_967_295;
pub const NO_ARC: u16 = 65_535;
pub const NO_DISTANCE: u64 = u64::MAX;

/// The refusals in the order of their numbers, from 0.
const REFUSALS: [&str; 18] = [
    "NONE", "NODE_COUNT", "COLUMNS", "BUFFERS", "ORIGIN", "WANTED", "ARC_END", "ARC_LENGTH", "NO_ROUTE",
    "CUT", "BIT_MAP", "IMPLIED_HEAD", "NEEDLESS", "ROOM", "NO_PATH", "NO_WALK", "LOAD_RANGE", "LOAD_SIZE",
];

#[repr(C)]
#[derive(Clone, Copy, Debug, Default, PartialEq)]
pub struct Planned {
    pub number: u32,
    pub place: u32,
    pub reached: u32,
    pub horizon: u64,
    pub iterations: u64,
    pub contractions: u64,
    pub extensions: u64,
    pub deletions: u64,
    pub scans: u64,
}

#[repr(C)]
#[derive(Clone, Copy, Debug, Default, PartialEq)]
pub struct Within {
    pub number: u32,
    pub place: u32,
    pub within: u32,
    pub iterations: u64,
}

#[repr(C)]
#[derive(Clone, Copy, Debug, Default, PartialEq)]
pub struct Listed {
    pub number: u32,
    pub place: u32,
    pub count: u32,
}

#[repr(C)]
#[derive(Clone, Copy, Debug, Default, PartialEq)]
pub struct Kept {
    pub number: u32,
    pub place: u32,
    pub standing: u32,
    pub count: u32,
}

#[repr(C)]
#[derive(Clone, Copy, Debug, Default, PartialEq)]
pub struct TableRead {
    pub number: u32,
    pub place: u32,
    pub n: u32,
    pub origin: u16,
    pub arcs: u32,
    pub wanted: u32,
}

#[repr(C)]
#[derive(Clone, Copy, Debug, Default, PartialEq)]
pub struct Written {
    pub number: u32,
    pub place: u32,
    pub length: u32,
}

#[repr(C)]
#[derive(Clone, Copy, Debug, Default, PartialEq)]
pub struct Made {
    pub number: u32,
    pub place: u32,
    pub arcs: u32,
}

/// The planning function, of this library or of another one.
pub type PlanRoutes = unsafe extern "C" fn(
    n: u32, origin: u16,
    tails: *const u16, tails_count: usize,
    heads: *const u16, heads_count: usize,
    lengths: *const u32, lengths_count: usize,
    wanted: *const u16, wanted_count: usize,
    distances: *mut u64, distances_count: usize,
    prices: *mut u64, prices_count: usize,
    tree: *mut u16, tree_count: usize,
    marks: *mut u8, marks_count: usize,
) -> Planned;

extern "C" {
    fn kestrelore_plan_routes(
        n: u32, origin: u16,
        tails: *const u16, tails_count: usize,
        heads: *const u16, heads_count: usize,
        lengths: *const u32, lengths_count: usize,
        wanted: *const u16, wanted_count: usize,
        distances: *mut u64, distances_count: usize,
        prices: *mut u64, prices_count: usize,
        tree: *mut u16, tree_count: usize,
        marks: *mut u8, marks_count: usize,
    ) -> Planned;

    fn kestrelore_plan_to_collector(
        n: u32, collector: u16,
        tails: *const u16, tails_count: usize,
        heads: *const u16, heads_count: usize,
        lengths: *const u32, lengths_count: usize,
        senders: *const u16, senders_count: usize,
        distances: *mut u64, distances_count: usize,
        prices: *mut u64, prices_count: usize,
        tree: *mut u16, tree_count: usize,
        marks: *mut u8, marks_count: usize,
    ) -> Planned;

    fn kestrelore_within_limit(
        n: u32, origin: u16, node: u16, limit: u64,
        tails: *const u16, tails_count: usize,
        heads: *const u16, heads_count: usize,
        lengths: *const u32, lengths_count: usize,
    ) -> Within;

    fn kestrelore_list_path(
        origin: u16, node: u16,
        tails: *const u16, tails_count: usize,
        heads: *const u16, heads_count: usize,
        tree: *const u16, tree_count: usize,
        output: *mut u16, output_count: usize,
    ) -> Listed;

    fn kestrelore_list_to_collector(
        collector: u16, node: u16,
        tails: *const u16, tails_count: usize,
        heads: *const u16, heads_count: usize,
        tree: *const u16, tree_count: usize,
        output: *mut u16, output_count: usize,
    ) -> Listed;

    fn kestrelore_keep_path(
        n: u32,
        tails: *const u16, tails_count: usize,
        heads: *const u16, heads_count: usize,
        lengths: *const u32, lengths_count: usize,
        standing: *const u16, standing_count: usize,
        fresh: *const u16, fresh_count: usize,
    ) -> Kept;

    fn kestrelore_read_link_file(
        file: *const u8, file_count: usize,
        tails: *mut u16, tails_count: usize,
        heads: *mut u16, heads_count: usize,
        lengths: *mut u32, lengths_count: usize,
        wanted: *mut u16, wanted_count: usize,
    ) -> TableRead;

    fn kestrelore_write_link_file(
        n: u32, origin: u16,
        tails: *const u16, tails_count: usize,
        heads: *const u16, heads_count: usize,
        lengths: *const u32, lengths_count: usize,
        wanted: *const u16, wanted_count: usize,
        output: *mut u8, output_count: usize,
    ) -> Written;

    fn kestrelore_make_load(
        n: u32, seed: u32, chance: u32, largest: u32,
        tails: *mut u16, tails_count: usize,
        heads: *mut u16, heads_count: usize,
        lengths: *mut u32, lengths_count: usize,
    ) -> Made;
}

/// The columns of a table.
#[derive(Clone, Copy)]
pub struct Columns<'a> {
    pub tails: &'a [u16],
    pub heads: &'a [u16],
    pub lengths: &'a [u32],
}

pub struct PlanBuffers<'a> {
    pub distances: &'a mut [u64],
    pub prices: &'a mut [u64],
    pub tree: &'a mut [u16],
    pub marks: &'a mut [u8],
}

pub struct ReadBuffers<'a> {
    pub tails: &'a mut [u16],
    pub heads: &'a mut [u16],
    pub lengths: &'a mut [u32],
    pub wanted: &'a mut [u16],
}

pub struct LoadBuffers<'a> {
    pub tails: &'a mut [u16],
    pub heads: &'a mut [u16],
    pub lengths: &'a mut [u32],
}

// Each call lends whole slices, by their own pointers and lengths, for the time of the call.

pub fn plan_routes(n: u32, origin: u16, columns: Columns, wanted: &[u16], out: PlanBuffers) -> Planned {
    plan_routes_by(kestrelore_plan_routes, n, origin, columns, wanted, out)
}

pub fn plan_routes_by(function: PlanRoutes, n: u32, origin: u16, columns: Columns, wanted: &[u16], out: PlanBuffers) -> Planned {
    unsafe {
        function(
            n, origin,
            columns.tails.as_ptr(), columns.tails.len(),
            columns.heads.as_ptr(), columns.heads.len(),
            columns.lengths.as_ptr(), columns.lengths.len(),
            wanted.as_ptr(), wanted.len(),
            out.distances.as_mut_ptr(), out.distances.len(),
            out.prices.as_mut_ptr(), out.prices.len(),
            out.tree.as_mut_ptr(), out.tree.len(),
            out.marks.as_mut_ptr(), out.marks.len(),
        )
    }
}

pub fn plan_to_collector(n: u32, collector: u16, columns: Columns, senders: &[u16], out: PlanBuffers) -> Planned {
    plan_routes_by(kestrelore_plan_to_collector, n, collector, columns, senders, out)
}

pub fn within_limit(n: u32, origin: u16, node: u16, limit: u64, columns: Columns) -> Within {
    unsafe {
        kestrelore_within_limit(
            n, origin, node, limit,
            columns.tails.as_ptr(), columns.tails.len(),
            columns.heads.as_ptr(), columns.heads.len(),
            columns.lengths.as_ptr(), columns.lengths.len(),
        )
    }
}

pub fn list_path(origin: u16, node: u16, tails: &[u16], heads: &[u16], tree: &[u16], output: &mut [u16]) -> Listed {
    unsafe {
        kestrelore_list_path(
            origin, node,
            tails.as_ptr(), tails.len(),
            heads.as_ptr(), heads.len(),
            tree.as_ptr(), tree.len(),
            output.as_mut_ptr(), output.len(),
        )
    }
}

pub fn list_to_collector(collector: u16, node: u16, tails: &[u16], heads: &[u16], tree: &[u16], output: &mut [u16]) -> Listed {
    unsafe {
        kestrelore_list_to_collector(
            collector, node,
            tails.as_ptr(), tails.len(),
            heads.as_ptr(), heads.len(),
            tree.as_ptr(), tree.len(),
            output.as_mut_ptr(), output.len(),
        )
    }
}

pub fn keep_path(n: u32, columns: Columns, standing: &[u16], fresh: &[u16]) -> Kept {
    unsafe {
        kestrelore_keep_path(
            n,
            columns.tails.as_ptr(), columns.tails.len(),
            columns.heads.as_ptr(), columns.heads.len(),
            columns.lengths.as_ptr(), columns.lengths.len(),
            standing.as_ptr(), standing.len(),
            fresh.as_ptr(), fresh.len(),
        )
    }
}

pub fn read_link_file(file: &[u8], out: ReadBuffers) -> TableRead {
    unsafe {
        kestrelore_read_link_file(
            file.as_ptr(), file.len(),
            out.tails.as_mut_ptr(), out.tails.len(),
            out.heads.as_mut_ptr(), out.heads.len(),
            out.lengths.as_mut_ptr(), out.lengths.len(),
            out.wanted.as_mut_ptr(), out.wanted.len(),
        )
    }
}

pub fn write_link_file(n: u32, origin: u16, columns: Columns, wanted: &[u16], output: &mut [u8]) -> Written {
    unsafe {
        kestrelore_write_link_file(
            n, origin,
            columns.tails.as_ptr(), columns.tails.len(),
            columns.heads.as_ptr(), columns.heads.len(),
            columns.lengths.as_ptr(), columns.lengths.len(),
            wanted.as_ptr(), wanted.len(),
            output.as_mut_ptr(), output.len(),
        )
    }
}

pub fn make_load(n: u32, seed: u32, chance: u32, largest: u32, out: LoadBuffers) -> Made {
    unsafe {
        kestrelore_make_load(
            n, seed, chance, largest,
            out.tails.as_mut_ptr(), out.tails.len(),
            out.heads.as_mut_ptr(), out.heads.len(),
            out.lengths.as_mut_ptr(), out.lengths.len(),
        )
    }
}

/// A line for a struct, with its size, and one for each field, with its offset and size.
macro_rules! struct_lines {
    ($text:ident, $name:literal, $kind:ident, $($field:ident)*) => {{
        let value = $kind::default();
        let start = &value as *const $kind as usize;
        writeln!($text, "{} {}", $name, size_of::<$kind>())?;
        $(
            let offset = &value.$field as *const _ as usize - start;
            writeln!($text, "{}.{} {offset} {}", $name, stringify!($field), size_of_val(&value.$field))?;
        )*
    }};
}

/// Sizes, offsets and numbers, as tests/layout.c prints those of the header.
pub fn layout() -> Result<String, std::fmt::Error> {
    let mut text = String::new();
    struct_lines!(text, "kestrelore_planned", Planned,
        number place reached horizon iterations contractions extensions deletions scans);
    struct_lines!(text, "kestrelore_within", Within, number place within iterations);
    struct_lines!(text, "kestrelore_listed", Listed, number place count);
    struct_lines!(text, "kestrelore_kept", Kept, number place standing count);
    struct_lines!(text, "kestrelore_table_read", TableRead, number place n origin arcs wanted);
    struct_lines!(text, "kestrelore_written", Written, number place length);
    struct_lines!(text, "kestrelore_made", Made, number place arcs);
    for (name, limit) in [
        ("MOST_NODES", MOST_NODES),
        ("MOST_ARCS", MOST_ARCS),
        ("MOST_WANTED", MOST_WANTED),
        ("LONGEST_FILE", LONGEST_FILE),
    ] {
        writeln!(text, "KESTRELORE_{name} {limit}")?;
    }
    writeln!(text, "KESTRELORE_DOWN {DOWN}")?;
    writeln!(text, "KESTRELORE_NO_ARC {NO_ARC}")?;
    writeln!(text, "KESTRELORE_NO_DISTANCE {NO_DISTANCE}")?;
    for (number, name) in REFUSALS.iter().enumerate() {
        writeln!(text, "KESTRELORE_{name} {number}")?;
    }
    Ok(text)
}
