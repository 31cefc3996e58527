//! Making a test load: known figures, the borders, refusals and their order, random numbers; and loads that are planned,
//! written and read back.

use super::*;
use crate::compare::{self, made_table, plan_filled, write_file, LoadSizes, LOAD_SIZES};
use crate::model::RIGHT;
use crate::shapes::chance_of;

/// The quick ones.
pub const QUICK: &[Group] = &[
    Group { name: "load: arcs that are known", run: known_arcs },
    Group { name: "load: the first draws from 0, and the chances beside them", run: first_draws },
    Group { name: "load: one node, chances 0 and 65,536, largest lengths 1 and 4,294,967,294", run: extremes },
    Group { name: "load: columns of exactly 6,000, longer and unequal", run: columns },
    Group { name: "load: 6,000 arcs and 6,001", run: full },
    Group { name: "load: refusals 1, 3, 16 and 17, and their order", run: refusals },
];

pub const GROUPS: &[Group] = &[
    Group { name: "load: 1,024 nodes", run: largest_table },
    Group { name: "load: several faults at once", run: several_faults },
    Group { name: "load: random numbers, 1 to 12 nodes", run: small },
    Group { name: "load: random numbers, up to 100 nodes", run: medium },
    Group { name: "load: random numbers, up to 1,024 nodes", run: large },
    Group { name: "load: made, and planned from node 0 to all nodes", run: planned },
    Group { name: "load: made, written as a link file and read back", run: written },
];

fn load(n: u32, seed: u32, chance: u32, largest: u32) -> Load {
    Load { n, seed, chance, largest }
}

fn expect(entries: &dyn Entries, load: &Load, sizes: LoadSizes, expected: Made) -> Result<(), String> {
    let answer = compare::make(entries, load, sizes)?;
    let words = || format!("{answer:?}, must be {expected:?}: columns {sizes:?}, {load:?}");
    if answer == expected { Ok(()) } else { Err(words()) }
}

fn made(arcs: usize) -> Made {
    Made { arcs: arcs as u32, ..Made::default() }
}

fn refused(number: u32) -> Made {
    Made { number, ..Made::default() }
}

/// The arcs that are made.
fn arcs_of(entries: &dyn Entries, load: &Load) -> Result<Vec<Arc>, String> {
    compare::make(entries, load, LOAD_SIZES)?;
    made_table(entries, load).map(|table| table.arcs()).map_err(|refusal| format!("{refusal:?}: {load:?}"))
}

fn expect_arcs(entries: &dyn Entries, load: &Load, expected: &[Arc]) -> Result<(), String> {
    let arcs = arcs_of(entries, load)?;
    if arcs == expected { Ok(()) } else { Err(format!("arcs {arcs:?}, must be {expected:?}: {load:?}")) }
}

fn known_arcs(entries: &dyn Entries, _: &mut Random) -> Tried {
    let rows: [(Load, &[Arc]); 4] = [
        (load(2, 0, CERTAIN, 10), &[(0, 1, 3), (1, 0, 5)]),
        (load(3, 0, 32_768, 1_000), &[(0, 1, 763), (1, 2, 823), (2, 0, 9)]),
        (load(3, 1, 32_768, 1_000), &[(0, 1, 468), (1, 2, 248)]),
        (
            load(4, 12_345, 20_000, LONGEST_ARC),
            &[(0, 1, 71_072_468), (1, 2, 2_129_828_779), (2, 3, 3_194_601_926), (3, 1, 3_004_788_883)],
        ),
    ];
    rows.iter().try_for_each(|(load, arcs)| expect_arcs(entries, load, arcs))?;
    Ok(rows.len())
}

/// From each state the next draw decides whether there is an arc from 0 to 1, and the one after it how long that is.
fn first_draws(entries: &dyn Entries, _: &mut Random) -> Tried {
    const DRAWS: [u32; 5] = [0, 1_013_904_223, 1_196_435_762, 3_519_870_697, 2_868_466_484];
    for next in DRAWS.windows(3) {
        let (seed, first, second) = (next[0], next[1], next[2]);
        for chance in [first / 65_536, first / 65_536 + 1, CERTAIN] {
            let arcs = arcs_of(entries, &load(2, seed, chance, LONGEST_ARC))?;
            let arc = arcs.first().filter(|arc| arc.0 == 0).copied();
            let expected = (first / 65_536 < chance).then_some((0, 1, 1 + second));
            if arc != expected {
                return Err(format!("{arc:?}, must be {expected:?}: seed {seed}, chance {chance}"));
            }
        }
    }
    Ok(3 * (DRAWS.len() - 2))
}

fn extremes(entries: &dyn Entries, _: &mut Random) -> Tried {
    let mut tried = 0;
    for seed in [0, 1, 1 << 31, u32::MAX] {
        for largest in [1, 2, LONGEST_ARC - 1, LONGEST_ARC] {
            for chance in [0, 1, 65_535, CERTAIN] {
                expect(entries, &load(1, seed, chance, largest), LOAD_SIZES, made(0))?;
                compare::make(entries, &load(3, seed, chance, largest), LOAD_SIZES)?;
            }
            expect(entries, &load(30, seed, 0, largest), LOAD_SIZES, made(0))?;
            let arcs = arcs_of(entries, &load(30, seed, CERTAIN, largest))?;
            let pairs = (0..30).flat_map(|tail| (0..30).map(move |head| (tail, head))).filter(|pair| pair.0 != pair.1);
            if !arcs.iter().map(|arc| (arc.0, arc.1)).eq(pairs) {
                return Err(format!("not each pair of 30 nodes: seed {seed}, {arcs:?}"));
            }
            tried += 10;
        }
    }
    Ok(tried)
}

fn columns(entries: &dyn Entries, _: &mut Random) -> Tried {
    let loads = [load(1, 7, CERTAIN, 1), load(5, 7, 0, 9), load(12, 7, 40_000, 9), load(78, 3, 65_480, 1_000)];
    let lengths = [MOST_ARCS, MOST_ARCS + 1, 10_000, 70_000];
    let mut tried = 0;
    for load in &loads {
        for length in lengths {
            let equal = [length; 3];
            let unequal = [[length, 6_000, 6_000], [6_000, length, 6_001], [6_002, 6_001, length]];
            compare::make(entries, load, equal)?;
            unequal.iter().try_for_each(|&sizes| compare::make(entries, load, sizes).map(drop))?;
            tried += 1 + unequal.len();
        }
    }
    Ok(tried)
}

/// Of 78 nodes, seed 3 gives 6,000 arcs at this chance, and seed 1 gives 6,001.
fn full(entries: &dyn Entries, _: &mut Random) -> Tried {
    let rows = [
        (load(77, 1, CERTAIN, 1), made(5_852)),
        (load(77, 2_026, CERTAIN, LONGEST_ARC), made(5_852)),
        (load(78, 5, 65_480, 1_000), made(5_999)),
        (load(78, 3, 65_480, 1_000), made(6_000)),
        (load(78, 1, 65_480, 1_000), refused(17)),
        (load(78, 1, 65_480, LONGEST_ARC), refused(17)),
        (load(78, 1, CERTAIN, 1), refused(17)),
        (load(79, 1, CERTAIN, LONGEST_ARC), refused(17)),
    ];
    for (load, expected) in &rows {
        expect(entries, load, LOAD_SIZES, *expected)?;
        expect(entries, load, [6_003, 6_001, 6_002], *expected)?;
    }
    Ok(2 * rows.len())
}

/// A number, and how the fault is put into the numbers and the columns of a load.
type Fault = (u32, fn(&mut Load, &mut LoadSizes));

/// In the order in which they are tested.
const FAULTS: &[Fault] = &[
    (1, |load, _| load.n = 0),
    (1, |load, _| load.n = 1_025),
    (1, |load, _| load.n = 65_536 + 78),
    (1, |load, _| load.n = u32::MAX),
    (3, |_, sizes| sizes[0] = 5_999),
    (3, |_, sizes| sizes[1] = 5_999),
    (3, |_, sizes| sizes[2] = 5_999),
    (3, |_, sizes| *sizes = [5_999; 3]),
    (3, |_, sizes| *sizes = [0; 3]),
    (16, |load, _| load.chance = CERTAIN + 1),
    (16, |load, _| load.chance = u32::MAX),
    (16, |load, _| load.largest = 0),
    (16, |load, _| load.largest = DOWN),
    (17, |load, _| load.seed = 1),
    (17, |load, _| load.chance = CERTAIN),
];

/// Of two faults the one that is tested first is told; the load without them has exactly 6,000 arcs, and columns of that
/// length.
fn refusals(entries: &dyn Entries, _: &mut Random) -> Tried {
    let good = (load(78, 3, 65_480, 1_000), LOAD_SIZES);
    expect(entries, &good.0, good.1, made(6_000))?;
    let mut tried = 1;
    for (place, &(number, first)) in FAULTS.iter().enumerate() {
        for &(_, other) in &FAULTS[place..] {
            let (mut load, mut sizes) = good;
            other(&mut load, &mut sizes);
            first(&mut load, &mut sizes);
            expect(entries, &load, sizes, refused(number))?;
            tried += 1;
        }
    }
    // Small loads: columns that their arcs would fit in, and just within each border.
    let rows = [
        (load(2, 0, CERTAIN, 10), [2, 2, 2], refused(3)),
        (load(1, 0, 0, 1), [0, 0, 0], refused(3)),
        (load(2, 0, CERTAIN + 1, 10), LOAD_SIZES, refused(16)),
        (load(2, 0, CERTAIN, 0), LOAD_SIZES, refused(16)),
        (load(2, 0, 0, DOWN), LOAD_SIZES, refused(16)),
        (load(2, 0, CERTAIN, LONGEST_ARC), LOAD_SIZES, made(2)),
        (load(2, 0, CERTAIN, 1), LOAD_SIZES, made(2)),
    ];
    rows.iter().try_for_each(|(load, sizes, expected)| expect(entries, load, *sizes, *expected))?;
    Ok(tried + rows.len())
}

fn largest_table(entries: &dyn Entries, _: &mut Random) -> Tried {
    let arcs = arcs_of(entries, &load(1_024, 2_026, 375, 1_000))?;
    let found = (arcs.len(), arcs.first().copied(), arcs.last().copied());
    let expected = (5_916, Some((0, 204, 262)), Some((1_023, 782, 151)));
    if found != expected {
        return Err(format!("{found:?}, must be {expected:?}"));
    }
    let rows = [(0, made(0)), (CERTAIN, refused(17)), (CERTAIN + 1, refused(16))];
    rows.iter().try_for_each(|&(chance, expected)| expect(entries, &load(1_024, 1, chance, 1), LOAD_SIZES, expected))?;
    let more = load(1_025, 2_026, 375, 1_000);
    expect(entries, &more, LOAD_SIZES, refused(1))?;
    Ok(rows.len() + 2)
}

/// A load of so many nodes: no arcs, a few, about 6,000, more, or any chance.
fn any_load(random: &mut Random, n: usize) -> Load {
    let arcs = match random.below(5) {
        0 => random.from(0, 3),
        1 => random.from(0, 5 * n),
        2 => random.from(5_900, 6_100),
        _ => random.from(0, 6_500),
    };
    let any_chance = random.from(0, CERTAIN as usize) as u32;
    let chance = if n <= 100 { random.pick(&[chance_of(n, arcs), any_chance, 1, 65_535]) } else { chance_of(n, arcs) };
    let any_seed = random.number() as u32;
    let seed = random.pick(&[any_seed, any_seed, any_seed, 0, 1, u32::MAX]);
    let any_largest = random.from(1, LONGEST_ARC as usize) as u32;
    let largest = random.pick(&[1, 2, 3, 10, 1_000, 65_536, 1 << 31, any_largest, LONGEST_ARC]);
    load(n as u32, seed, chance, largest)
}

/// Columns that are long enough, or longer and unequal.
fn any_columns(random: &mut Random) -> LoadSizes {
    let longer = random.pick(&[0, 0, 1, 100]);
    [0; 3].map(|_| MOST_ARCS + random.from(0, longer))
}

fn several_faults(entries: &dyn Entries, random: &mut Random) -> Tried {
    let tried = 4_000;
    for _ in 0..tried {
        let n = random.from(1, 12);
        let (mut load, mut sizes) = (any_load(random, n), any_columns(random));
        if random.one_in(4) {
            load.n = 78;
        }
        for _ in 0..random.from(0, 3) {
            match random.below(5) {
                0 => load.n = random.pick(&[0, 1_025, 65_535, 65_536, 65_537, u32::MAX]),
                1 => sizes[random.below(3)] = random.pick(&[0, 1, 5_998, 5_999]),
                2 => load.chance = random.pick(&[65_537, 131_072, u32::MAX]),
                3 => load.largest = random.pick(&[0, DOWN]),
                _ => load.chance = CERTAIN,
            }
        }
        compare::make(entries, &load, sizes)?;
    }
    Ok(tried)
}

/// So many loads. Some of them have no arcs, some have arcs, and where there may be so many some are refused.
fn random_loads(entries: &dyn Entries, random: &mut Random, count: usize, most_nodes: usize) -> Tried {
    let (mut empty, mut filled, mut over) = (0, 0, 0);
    for _ in 0..count {
        let n = random.from(1, most_nodes);
        let load = any_load(random, n);
        let sizes = any_columns(random);
        match compare::make(entries, &load, sizes)? {
            Made { number: 0, arcs: 0, .. } => empty += 1,
            Made { number: 0, .. } => filled += 1,
            _ => over += 1,
        }
    }
    let enough = empty >= 5 && filled >= count / 3 && (over >= 5 || most_nodes < 78);
    let words = || format!("too few of a kind: {empty} loads without arcs, {filled} with arcs, {over} refused");
    if enough { Ok(count) } else { Err(words()) }
}

fn small(entries: &dyn Entries, random: &mut Random) -> Tried {
    random_loads(entries, random, 4_000, 12)
}

fn medium(entries: &dyn Entries, random: &mut Random) -> Tried {
    random_loads(entries, random, 2_000, 100)
}

fn large(entries: &dyn Entries, random: &mut Random) -> Tried {
    random_loads(entries, random, 100, 1_024)
}

/// Loads that can be made: many small ones and some large ones, the last with 1,024 nodes and 5,916 arcs.
fn tables(entries: &dyn Entries, random: &mut Random) -> Result<Vec<Table>, String> {
    let mut loads = Vec::new();
    for (count, most_nodes) in [(600, 12), (200, 77), (10, 1_024)] {
        for _ in 0..count {
            let n = random.from(1, most_nodes);
            let arcs = random.pick(&[n, 2 * n, 4 * n, n * n, 5_500]).min(5_500);
            loads.push(Load { chance: chance_of(n, arcs), ..any_load(random, n) });
        }
    }
    loads.push(load(1_024, 2_026, 375, 1_000));
    loads.iter().map(|load| made_table(entries, load).map_err(|refusal| format!("{refusal:?}: {load:?}"))).collect()
}

/// No load is turned down: the number is 0, or 8 where a node has no walk from node 0. Both are there.
fn planned(entries: &dyn Entries, random: &mut Random) -> Tried {
    let tables = tables(entries, random)?;
    let (mut whole, mut apart) = (0, 0);
    for table in &tables {
        compare::plan(entries, table)?;
        match plan_filled(entries, table).0.number {
            0 => whole += 1,
            8 => apart += 1,
            number => return Err(format!("refused with {number}: {table:?}")),
        }
    }
    let words = || format!("too few of a kind: {whole} loads with a walk to each node, {apart} without");
    if whole.min(apart) >= 50 { Ok(tables.len()) } else { Err(words()) }
}

fn written(entries: &dyn Entries, random: &mut Random) -> Tried {
    let tables = tables(entries, random)?;
    for table in &tables {
        compare::round_trip(entries, table)?;
        let length = write_file(&RIGHT, table).map_or(0, |file| file.len());
        [length, LONGEST_FILE].iter().try_for_each(|&room| compare::write(entries, table, room))?;
    }
    Ok(3 * tables.len())
}
