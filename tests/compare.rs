//! The same call to the product and to the model: every field of the answer, every element of every
//! buffer and the guards around them. A fault comes back as words with what is needed to repeat it.

use crate::lent::{Element, Lent};
use crate::model::RIGHT;
use crate::optimality::{self, Filled};
use crate::rules::*;
use std::hint::black_box;

pub type Verdict = Result<(), String>;

/// Words for the first element that differs.
fn same<T: Element>(name: &str, product: &Lent<T>, model: &Lent<T>) -> Verdict {
    if !product.guards_hold() {
        return Err(format!("{name}: written outside the buffer"));
    }
    match product.held().iter().zip(model.held()).position(|(a, b)| a != b) {
        None => Ok(()),
        Some(at) => Err(format!("{name}[{at}] is {:?}, must be {:?}", product.held()[at], model.held()[at])),
    }
}

fn same_answer<A: PartialEq + std::fmt::Debug>(product: &A, model: &A) -> Verdict {
    if product == model { Ok(()) } else { Err(format!("the answer is {product:?},\n  must be {model:?}")) }
}

fn rest_untouched<T: Element>(name: &str, buffer: &Lent<T>, start: usize) -> Verdict {
    if buffer.rest_untouched(start) { Ok(()) } else { Err(format!("{name}: touched from element {start} on")) }
}

// Planning, from the origin and to a collector.

/// A planning function, and the check of its finished plans without any auction.
struct Planning {
    plan: fn(&dyn Entries, &Table, PlanBuffers) -> Planned,
    check: fn(&Table, &Planned, &Filled) -> Verdict,
}

const FROM_ORIGIN: Planning =
    Planning { plan: |entries, table, out| entries.plan(table, out), check: optimality::check };
const TO_COLLECTOR: Planning =
    Planning { plan: |entries, table, out| entries.plan_to_collector(table, out), check: optimality::check_to_collector };

struct LentPlan {
    distances: Lent<u64>,
    prices: Lent<u64>,
    tree: Lent<u16>,
    marks: Lent<u8>,
}

/// How long the four buffers are: distances, prices, tree, marks.
pub type Sizes = [usize; 4];

pub fn right_sizes(table: &Table) -> Sizes {
    let n = table.n as usize;
    [n, n, n, table.tails.len()]
}

impl Planning {
    fn lent(&self, entries: &dyn Entries, table: &Table, sizes: Sizes) -> (Planned, LentPlan) {
        let [distances, prices, tree, marks] = sizes;
        let mut lent = LentPlan {
            distances: Lent::new(distances),
            prices: Lent::new(prices),
            tree: Lent::new(tree),
            marks: Lent::new(marks),
        };
        let out = PlanBuffers {
            distances: lent.distances.part(),
            prices: lent.prices.part(),
            tree: lent.tree.part(),
            marks: lent.marks.part(),
        };
        ((self.plan)(entries, table, out), lent)
    }

    /// Plans with buffers of the right sizes.
    fn filled(&self, entries: &dyn Entries, table: &Table) -> (Planned, Filled) {
        let (answer, lent) = self.lent(entries, table, right_sizes(table));
        (answer, lent.filled())
    }

    fn compare(&self, entries: &dyn Entries, table: &Table, sizes: Sizes) -> Verdict {
        let before = table.clone();
        let (answer, lent) = self.lent(entries, table, sizes);
        let (expected, model) = self.lent(&RIGHT, table, sizes);
        same_answer(&answer, &expected)?;
        same("distances", &lent.distances, &model.distances)?;
        same("prices", &lent.prices, &model.prices)?;
        same("tree", &lent.tree, &model.tree)?;
        same("marks", &lent.marks, &model.marks)?;
        same_answer(table, &before)?;
        if answer.number == 0 || answer.number == 8 {
            return (self.check)(table, &answer, &lent.filled());
        }
        rest_untouched("distances", &lent.distances, 0)?;
        rest_untouched("prices", &lent.prices, 0)?;
        rest_untouched("tree", &lent.tree, 0)?;
        rest_untouched("marks", &lent.marks, 0)
    }

    /// Compares with buffers of the right sizes; a failing table is made smaller before it is shown.
    fn compare_fitting(&self, entries: &dyn Entries, table: &Table) -> Verdict {
        let fails = |table: &Table| self.compare(entries, table, right_sizes(table)).is_err();
        if !fails(table) {
            return Ok(());
        }
        let small = smaller_table(table, &fails);
        self.compare_sized(entries, &small, right_sizes(&small))
    }

    fn compare_sized(&self, entries: &dyn Entries, table: &Table, sizes: Sizes) -> Verdict {
        let with_table = |fault| format!("{fault}\n  buffers {sizes:?}, {}", table_words(table));
        self.compare(entries, table, sizes).map_err(with_table)
    }
}

impl LentPlan {
    fn filled(&self) -> Filled {
        Filled {
            distances: self.distances.held().to_vec(),
            prices: self.prices.held().to_vec(),
            tree: self.tree.held().to_vec(),
            marks: self.marks.held().to_vec(),
        }
    }
}

pub fn plan_filled(entries: &dyn Entries, table: &Table) -> (Planned, Filled) {
    FROM_ORIGIN.filled(entries, table)
}

pub fn plan(entries: &dyn Entries, table: &Table) -> Verdict {
    FROM_ORIGIN.compare_fitting(entries, table)
}

pub fn plan_sized(entries: &dyn Entries, table: &Table, sizes: Sizes) -> Verdict {
    FROM_ORIGIN.compare_sized(entries, table, sizes)
}

pub fn plan_to_collector_filled(entries: &dyn Entries, table: &Table) -> (Planned, Filled) {
    TO_COLLECTOR.filled(entries, table)
}

pub fn plan_to_collector(entries: &dyn Entries, table: &Table) -> Verdict {
    TO_COLLECTOR.compare_fitting(entries, table)
}

pub fn plan_to_collector_sized(entries: &dyn Entries, table: &Table, sizes: Sizes) -> Verdict {
    TO_COLLECTOR.compare_sized(entries, table, sizes)
}

/// Drops arcs and wanted nodes while the table still fails; unequal columns stay as they are.
fn smaller_table(table: &Table, fails: &dyn Fn(&Table) -> bool) -> Table {
    if !table.columns_equal() {
        return table.clone();
    }
    let with = |arcs: &[Arc], wanted: &[u16]| Table::new(table.n, table.origin, arcs, wanted);
    let wanted = smaller(table.wanted.clone(), &|wanted| fails(&with(&table.arcs(), wanted)));
    let arcs = smaller(table.arcs(), &|arcs| fails(&with(arcs, &wanted)));
    with(&arcs, &wanted)
}

/// How often a failing case is tried again to make it smaller.
const MOST_TRIES: usize = 500;

/// Drops parts of a list, long ones first, while it still fails.
fn smaller<T: Clone>(mut list: Vec<T>, fails: &dyn Fn(&[T]) -> bool) -> Vec<T> {
    let mut tries = 0;
    let mut part = (list.len() + 1) / 2;
    while part > 0 {
        let mut start = 0;
        while start < list.len() && tries < MOST_TRIES {
            tries += 1;
            let mut rest = list.clone();
            rest.drain(start..(start + part).min(list.len()));
            if fails(&rest) {
                list = rest;
            } else {
                start += part;
            }
        }
        part /= 2;
    }
    list
}

fn table_words(table: &Table) -> String {
    let Table { n, origin, wanted, .. } = table;
    let arcs = if table.columns_equal() {
        format!("arcs (tail, head, length) {:?}", table.arcs())
    } else {
        format!("tails {:?} heads {:?} lengths {:?}", table.tails, table.heads, table.lengths)
    };
    format!("table n {n}, origin {origin}, wanted {wanted:?}, {arcs}")
}

// Asking for a limit.

fn compare_within(entries: &dyn Entries, table: &Table, node: u16, limit: u64) -> Verdict {
    let before = table.clone();
    let answer = entries.within(table, node, limit);
    same_answer(&answer, &RIGHT.within(table, node, limit))?;
    same_answer(table, &before)?;
    if answer.number != 0 {
        return Ok(());
    }
    optimality::check_limit(table, node, limit, &answer)?;
    let (plan, _) = plan_filled(entries, &Table { wanted: vec![node], ..before });
    check_cut(&answer, limit, plan.iterations)
}

/// As many iterations as the plan for the node makes; fewer only where the node was not reached and a price can be above
/// the limit.
fn check_cut(answer: &Within, limit: u64, planned: u64) -> Verdict {
    let may_be_cut = answer.within == 0 && limit < u64::MAX;
    let holds = answer.iterations == planned || may_be_cut && answer.iterations < planned;
    if holds { Ok(()) } else { Err(format!("{} iterations, the plan makes {planned}", answer.iterations)) }
}

/// Compares what is answered to a limit; a failing table is made smaller before it is shown.
pub fn within(entries: &dyn Entries, table: &Table, node: u16, limit: u64) -> Verdict {
    let fails = |table: &Table| compare_within(entries, table, node, limit).is_err();
    if !fails(table) {
        return Ok(());
    }
    let small = smaller_table(table, &fails);
    let with_table = |fault| format!("{fault}\n  node {node}, limit {limit}, {}", table_words(&small));
    compare_within(entries, &small, node, limit).map_err(with_table)
}

// Listing a path, from the origin and to a collector.

type ListPath = fn(&dyn Entries, &Listing, &mut [u16]) -> Listed;

pub fn list(entries: &dyn Entries, listing: &Listing, room: usize) -> Verdict {
    list_by(|entries, listing, output| entries.list(listing, output), entries, listing, room)
}

pub fn list_to_collector(entries: &dyn Entries, listing: &Listing, room: usize) -> Verdict {
    list_by(|entries, listing, output| entries.list_to_collector(listing, output), entries, listing, room)
}

fn list_by(list: ListPath, entries: &dyn Entries, listing: &Listing, room: usize) -> Verdict {
    let mut output = Lent::new(room);
    let mut model = Lent::new(room);
    let answer = list(entries, listing, output.part());
    let expected = list(&RIGHT, listing, model.part());
    same_answer(&answer, &expected)
        .and_then(|()| same("output", &output, &model))
        .and_then(|()| rest_untouched("output", &output, expected.count as usize))
        .map_err(|fault| format!("{fault}\n  room {room}, {listing:?}"))
}

// Keeping a path.

/// A list that was lent to be read is as it was, and so is what lies beside it.
fn unwritten<T: Element>(name: &str, lent: &Lent<T>, list: &[T]) -> Verdict {
    // It was lent unchangeable; what it holds now is read anew.
    let lent = black_box(lent);
    let as_it_was = lent.guards_hold() && lent.held() == list;
    if as_it_was { Ok(()) } else { Err(format!("{name}: written, in the list or beside it")) }
}

fn compare_keep(entries: &dyn Entries, table: &Table, standing: &[u16], fresh: &[u16]) -> Result<Kept, String> {
    let (tails, heads, lengths) = (Lent::of(&table.tails), Lent::of(&table.heads), Lent::of(&table.lengths));
    let (lent_standing, lent_fresh) = (Lent::of(standing), Lent::of(fresh));
    let columns = Columns { tails: tails.held(), heads: heads.held(), lengths: lengths.held() };
    let answer = entries.keep(table.n, columns, lent_standing.held(), lent_fresh.held());
    same_answer(&answer, &RIGHT.keep(table.n, table.columns(), standing, fresh))?;
    unwritten("tails", &tails, &table.tails)?;
    unwritten("heads", &heads, &table.heads)?;
    unwritten("lengths", &lengths, &table.lengths)?;
    unwritten("standing", &lent_standing, standing)?;
    unwritten("fresh", &lent_fresh, fresh)?;
    Ok(answer)
}

/// Compares which path is kept, and gives the answer; a failing table and its lists are made smaller before they are shown.
pub fn keep(entries: &dyn Entries, table: &Table, standing: &[u16], fresh: &[u16]) -> Result<Kept, String> {
    let fails = |table: &Table, standing: &[u16], fresh: &[u16]| compare_keep(entries, table, standing, fresh).is_err();
    let first = compare_keep(entries, table, standing, fresh);
    if first.is_ok() {
        return first;
    }
    let table = smaller_table(table, &|table| fails(table, standing, fresh));
    let standing = smaller(standing.to_vec(), &|standing| fails(&table, standing, fresh));
    let fresh = smaller(fresh.to_vec(), &|fresh| fails(&table, &standing, fresh));
    let lists = format!("standing {}, fresh {}", list_words(&standing), list_words(&fresh));
    compare_keep(entries, &table, &standing, &fresh).map_err(|fault| format!("{fault}\n  {lists}, {}", table_words(&table)))
}

/// The nodes of a list; of a very long one its start.
fn list_words(list: &[u16]) -> String {
    format!("{} nodes {:?}", list.len(), &list[..list.len().min(1_100)])
}

// Reading and writing link files.

/// How long the reader's buffers are: tails, heads, lengths, wanted.
pub const READER_SIZES: Sizes = [MOST_ARCS, MOST_ARCS, MOST_ARCS, MOST_WANTED];

struct LentTable {
    tails: Lent<u16>,
    heads: Lent<u16>,
    lengths: Lent<u32>,
    wanted: Lent<u16>,
}

fn read_lent(entries: &dyn Entries, file: &[u8], sizes: Sizes) -> (TableRead, LentTable) {
    let [tails, heads, lengths, wanted] = sizes;
    let mut lent = LentTable {
        tails: Lent::new(tails),
        heads: Lent::new(heads),
        lengths: Lent::new(lengths),
        wanted: Lent::new(wanted),
    };
    let answer = entries.read(file, ReadBuffers {
        tails: lent.tails.part(),
        heads: lent.heads.part(),
        lengths: lent.lengths.part(),
        wanted: lent.wanted.part(),
    });
    (answer, lent)
}

/// The table of a file, or the refusal.
pub fn read_table(entries: &dyn Entries, file: &[u8]) -> Result<Table, Refusal> {
    let (answer, lent) = read_lent(entries, file, READER_SIZES);
    if answer.number != 0 {
        return Err(Refusal { number: answer.number, place: answer.place });
    }
    let (arcs, wanted) = (answer.arcs as usize, answer.wanted as usize);
    Ok(Table {
        n: answer.n,
        origin: answer.origin,
        tails: lent.tails.held()[..arcs].to_vec(),
        heads: lent.heads.held()[..arcs].to_vec(),
        lengths: lent.lengths.held()[..arcs].to_vec(),
        wanted: lent.wanted.held()[..wanted].to_vec(),
    })
}

fn compare_read(entries: &dyn Entries, file: &[u8], sizes: Sizes) -> Verdict {
    let (answer, lent) = read_lent(entries, file, sizes);
    let (expected, model) = read_lent(&RIGHT, file, sizes);
    same_answer(&answer, &expected)?;
    same("tails", &lent.tails, &model.tails)?;
    same("heads", &lent.heads, &model.heads)?;
    same("lengths", &lent.lengths, &model.lengths)?;
    same("wanted", &lent.wanted, &model.wanted)?;
    let (arcs, wanted) = (expected.arcs as usize, expected.wanted as usize);
    rest_untouched("tails", &lent.tails, arcs)?;
    rest_untouched("heads", &lent.heads, arcs)?;
    rest_untouched("lengths", &lent.lengths, arcs)?;
    rest_untouched("wanted", &lent.wanted, wanted)?;
    if answer.number != 0 {
        return Ok(());
    }
    let table = read_table(entries, file).map_err(|refusal| format!("{refusal:?} when read again"))?;
    same_answer(&write_file(entries, &table).as_deref(), &Ok(file)).map_err(|fault| format!("written back: {fault}"))
}

/// Compares reading, and writing back what was accepted; a failing file is made smaller before it is shown.
pub fn read(entries: &dyn Entries, file: &[u8]) -> Verdict {
    let fails = |file: &[u8]| compare_read(entries, file, READER_SIZES).is_err();
    if !fails(file) {
        return Ok(());
    }
    read_sized(entries, &smaller(file.to_vec(), &fails), READER_SIZES)
}

pub fn read_sized(entries: &dyn Entries, file: &[u8], sizes: Sizes) -> Verdict {
    compare_read(entries, file, sizes).map_err(|fault| format!("{fault}\n  buffers {sizes:?}, file {}", hexadecimal(file)))
}

pub fn hexadecimal(bytes: &[u8]) -> String {
    bytes.iter().map(|byte| format!("{byte:02x}")).collect()
}

/// The file of a table, in a buffer that is long enough for every table.
pub fn write_file(entries: &dyn Entries, table: &Table) -> Result<Vec<u8>, Refusal> {
    let mut output = vec![0; LONGEST_FILE];
    let answer = entries.write(table, &mut output);
    output.truncate(answer.length as usize);
    if answer.number == 0 { Ok(output) } else { Err(Refusal { number: answer.number, place: answer.place }) }
}

/// Compares writing into a buffer with that much room.
pub fn write(entries: &dyn Entries, table: &Table, room: usize) -> Verdict {
    let mut output = Lent::new(room);
    let mut model = Lent::new(room);
    let answer = entries.write(table, output.part());
    let expected = RIGHT.write(table, model.part());
    same_answer(&answer, &expected)
        .and_then(|()| same("output", &output, &model))
        .and_then(|()| rest_untouched("output", &output, expected.length as usize))
        .map_err(|fault| format!("{fault}\n  room {room}, {}", table_words(table)))
}

/// A written table reads back as it was.
pub fn round_trip(entries: &dyn Entries, table: &Table) -> Verdict {
    let file = write_file(entries, table).map_err(|refusal| format!("{refusal:?}: {}", table_words(table)))?;
    same_answer(&read_table(entries, &file), &Ok(table.clone())).map_err(|fault| format!("read back: {fault}"))
}

// Making a test load.

/// How long the three columns are: tails, heads, lengths.
pub type LoadSizes = [usize; 3];

pub const LOAD_SIZES: LoadSizes = [MOST_ARCS; 3];

struct LentColumns {
    tails: Lent<u16>,
    heads: Lent<u16>,
    lengths: Lent<u32>,
}

impl LentColumns {
    /// The arcs at their starts.
    fn arcs(&self, count: usize) -> Vec<Arc> {
        let (tails, heads, lengths) = (self.tails.held(), self.heads.held(), self.lengths.held());
        (0..count).map(|position| (tails[position], heads[position], lengths[position])).collect()
    }
}

fn make_lent(entries: &dyn Entries, load: &Load, sizes: LoadSizes) -> (Made, LentColumns) {
    let [tails, heads, lengths] = sizes;
    let mut lent = LentColumns { tails: Lent::new(tails), heads: Lent::new(heads), lengths: Lent::new(lengths) };
    let answer = entries.make(load, LoadBuffers {
        tails: lent.tails.part(),
        heads: lent.heads.part(),
        lengths: lent.lengths.part(),
    });
    (answer, lent)
}

/// The table that is made, with all nodes wanted from node 0, or the refusal.
pub fn made_table(entries: &dyn Entries, load: &Load) -> Result<Table, Refusal> {
    let (answer, lent) = make_lent(entries, load, LOAD_SIZES);
    if answer.number != 0 {
        return Err(Refusal { number: answer.number, place: answer.place });
    }
    let wanted: Vec<u16> = (0..load.n as u16).collect();
    Ok(Table::new(load.n, 0, &lent.arcs(answer.arcs as usize), &wanted))
}

/// No loop and no pair twice, by tail and then by head; lengths from 1 to the largest.
fn check_load(load: &Load, arcs: &[Arc]) -> Verdict {
    let in_range = |arc: &Arc| {
        let (tail, head, length) = *arc;
        tail != head && (tail.max(head) as u32) < load.n && (1..=load.largest).contains(&length)
    };
    let ascending = arcs.windows(2).all(|two| (two[0].0, two[0].1) < (two[1].0, two[1].1));
    if ascending && arcs.iter().all(in_range) { Ok(()) } else { Err(format!("not the arcs of a load: {arcs:?}")) }
}

fn compare_make(entries: &dyn Entries, load: &Load, sizes: LoadSizes) -> Result<Made, String> {
    let (answer, lent) = make_lent(entries, load, sizes);
    let (expected, model) = make_lent(&RIGHT, load, sizes);
    same_answer(&answer, &expected)?;
    same("tails", &lent.tails, &model.tails)?;
    same("heads", &lent.heads, &model.heads)?;
    same("lengths", &lent.lengths, &model.lengths)?;
    let arcs = expected.arcs as usize;
    rest_untouched("tails", &lent.tails, arcs)?;
    rest_untouched("heads", &lent.heads, arcs)?;
    rest_untouched("lengths", &lent.lengths, arcs)?;
    check_load(load, &lent.arcs(arcs))?;
    Ok(answer)
}

/// Compares making a load in columns of these sizes, and gives the answer.
pub fn make(entries: &dyn Entries, load: &Load, sizes: LoadSizes) -> Result<Made, String> {
    compare_make(entries, load, sizes).map_err(|fault| format!("{fault}\n  columns {sizes:?}, {load:?}"))
}

// The program.

/// The last line of a sheet that lists nodes counts each arc of the table once, and a tree arc for each reached node
/// but the origin. Any other sheet is one line.
fn check_totals(sheet: &str, arcs: usize) -> Verdict {
    let lines: Vec<&str> = sheet.lines().collect();
    let Some(reached) = lines.iter().find_map(|line| line.strip_prefix("reached ")) else {
        return if lines.len() == 1 { Ok(()) } else { Err(format!("{} lines, and no node", lines.len())) };
    };
    let reached = reached.split(' ').next().and_then(|word| word.parse::<usize>().ok());
    let counts = lines.last().and_then(|line| line.strip_prefix("marks "));
    let counts: Option<Vec<usize>> = counts.and_then(|words| words.split(' ').map(|word| word.parse().ok()).collect());
    match counts.as_deref() {
        Some(&[a, b, c, d]) if a + b + c + d == arcs && Some(d + 1) == reached => Ok(()),
        _ => Err(format!("the last line is {:?}; {arcs} arcs, reached {reached:?}", lines.last())),
    }
}

pub fn same_sheet(printed: &str, input: &[u8]) -> Verdict {
    let expected = RIGHT.sheet(input);
    let mut table = Table::default();
    let arcs = RIGHT.table_of(input, &mut table).map_or(0, |()| table.tails.len());
    check_totals(&expected, arcs).map_err(|fault| format!("the model's own sheet: {fault}"))?;
    check_totals(printed, arcs)?;
    let (printed, expected): (Vec<&str>, Vec<&str>) =
        (printed.split_inclusive('\n').collect(), expected.split_inclusive('\n').collect());
    let differs = |line: &usize| printed.get(*line) != expected.get(*line);
    match (0..printed.len().max(expected.len())).find(differs) {
        None => Ok(()),
        Some(line) => Err(format!("line {} is {:?}, must be {:?}", line + 1, printed.get(line), expected.get(line))),
    }
}

/// Compares what is printed for an input.
pub fn print(entries: &dyn Entries, input: &[u8]) -> Verdict {
    let start = &input[..input.len().min(400)];
    let with_input = |fault| format!("{fault}\n  input of {} bytes {}", input.len(), hexadecimal(start));
    entries.print(input).and_then(|printed| same_sheet(&printed, input)).map_err(with_input)
}
