//! Link files: written, read back, cut, changed, with needless fields, and at the limits.

use super::*;
use crate::compare::{self, write_file};
use crate::model::RIGHT;
use crate::shapes::{self, Shape};

pub const GROUPS: &[Group] = &[
    Group { name: "files: random tables written, every room, and read back", run: written },
    Group { name: "files: cut at every byte", run: cut },
    Group { name: "files: every byte changed to every value", run: changed },
    Group { name: "files: bytes inserted, dropped and appended", run: edited },
    Group { name: "files: records made field by field, with needless and missing fields", run: composed },
    Group { name: "files: random bytes", run: noise },
    Group { name: "files: limits", run: limits },
];

/// A number that is often next to another one, so that fields can be left out.
fn near(random: &mut Random, last: u16) -> u16 {
    match random.below(6) {
        0 | 1 => last,
        2 | 3 => last.wrapping_add(1),
        4 => random.pick(&[0, 1, 65_534, 65_535]),
        _ => random.number() as u16,
    }
}

fn any_length(random: &mut Random, last: u32) -> u32 {
    match random.below(4) {
        0 | 1 => last,
        2 => random.pick(&[0, 1, LONGEST_ARC, DOWN]),
        _ => random.number() as u32,
    }
}

/// A load, or its first arcs.
fn any_load(random: &mut Random, most_arcs: usize) -> Table {
    let n = random.pick(&[1, 2, 3, 4, 60]);
    let table = shapes::table(random, Shape::Load, n);
    let arcs: Vec<Arc> = table.arcs().into_iter().take(most_arcs).collect();
    Table::new(table.n, table.origin, &arcs, &table.wanted)
}

/// A table as the file can hold it: a load, or one with nodes and lengths that only the planner refuses.
fn any_table(random: &mut Random, most_arcs: usize) -> Table {
    if random.one_in(6) {
        return any_load(random, most_arcs);
    }
    let n = random.pick(&[1, 2, 3, 5, 300, 1_024]);
    let mut arc = (random.number() as u16, random.pick(&[0, 65_534, 65_535]), 1);
    let arcs: Vec<Arc> = (0..random.from(0, most_arcs))
        .map(|_| {
            arc = (near(random, arc.0), near(random, arc.1), any_length(random, arc.2));
            arc
        })
        .collect();
    let mut wanted: Vec<u16> = (0..n as u16).collect();
    match random.below(6) {
        0 => wanted.clear(),
        1 => drop(wanted.pop()),
        2 => wanted = (0..random.below(6)).map(|_| random.number() as u16).collect(),
        3 => { let at = random.below(wanted.len()); wanted[at] = random.number() as u16 % 4; }
        4 if n < 1_024 => wanted.push(n as u16),
        _ => {}
    }
    Table::new(n, random.pick(&[0, 0, 1, 65_535]), &arcs, &wanted)
}

/// A small file, made by the model.
fn any_file(random: &mut Random, most_arcs: usize) -> Vec<u8> {
    let mut table = any_table(random, most_arcs);
    table.n = table.n.min(5);
    table.wanted.truncate(4);
    write_file(&RIGHT, &table).expect("such tables can be written")
}

fn written(entries: &dyn Entries, random: &mut Random) -> Tried {
    let mut tried = 0;
    for round in 0..2_000 {
        let table = any_table(random, if round % 50 == 0 { 6_000 } else { 8 });
        compare::round_trip(entries, &table)?;
        let length = write_file(&RIGHT, &table).map_or(0, |file| file.len());
        let least = if length < 60 { 0 } else { length - 2 };
        (least..=length + 2).try_for_each(|room| compare::write(entries, &table, room))?;
        tried += length + 4 - least;
    }
    Ok(tried)
}

fn cut(entries: &dyn Entries, random: &mut Random) -> Tried {
    let mut tried = 0;
    for _ in 0..300 {
        let file = any_file(random, 6);
        (0..=file.len()).try_for_each(|length| compare::read(entries, &file[..length]))?;
        tried += file.len() + 1;
    }
    Ok(tried)
}

fn changed(entries: &dyn Entries, random: &mut Random) -> Tried {
    let mut tried = 0;
    let mut files = vec![EXAMPLE_FILE.to_vec()];
    files.extend((0..5).map(|_| any_file(random, 3)));
    for file in files {
        for at in 0..file.len() {
            for value in 0..=255 {
                let mut other = file.clone();
                other[at] = value;
                compare::read(entries, &other)?;
            }
        }
        tried += file.len() * 256;
    }
    Ok(tried)
}

fn edited(entries: &dyn Entries, random: &mut Random) -> Tried {
    let tried = 10_000;
    for _ in 0..tried {
        let mut file = any_file(random, 6);
        for _ in 0..random.from(1, 3) {
            let at = random.below(file.len() + 1);
            match random.below(3) {
                0 => file.insert(at, random.pick(&[0, 1, 4, 5, 6, 7, 8, 255])),
                1 if at < file.len() => drop(file.remove(at)),
                _ => file.extend((0..random.from(1, 9)).map(|_| random.below(8) as u8)),
            }
        }
        compare::read(entries, &file)?;
    }
    Ok(tried)
}

/// Adds a record with that bit map; its fields often say what their absence would say.
fn add_record(random: &mut Random, file: &mut Vec<u8>, last: &mut Arc, bits: u8) {
    let (tail, head, length) = *last;
    file.push(bits);
    if bits & 1 != 0 {
        last.0 = if random.one_in(4) { tail } else { random.below(3) as u16 };
        file.extend(last.0.to_le_bytes());
    }
    last.1 = head.wrapping_add(1);
    if bits & 2 != 0 {
        last.1 = random.pick(&[last.1, 65_535, 65_535, 0, 3]);
        file.extend(last.1.to_le_bytes());
    }
    if bits & 4 != 0 {
        last.2 = if random.one_in(4) { length } else { random.below(3) as u32 };
        file.extend(last.2.to_le_bytes());
    }
}

fn composed(entries: &dyn Entries, random: &mut Random) -> Tried {
    let tried = 30_000;
    for _ in 0..tried {
        let n = random.pick(&[1_u16, 2, 3, 1_024, 0, 1_025]);
        let bits = if random.one_in(20) { random.number() as u8 } else { random.pick(&[1, 1, 3, 5, 7]) };
        let mut file = vec![bits];
        file.extend(n.to_le_bytes());
        if bits & 2 != 0 {
            file.extend(random.pick(&[0_u16, 1, 65_535]).to_le_bytes());
        }
        if bits & 4 != 0 {
            let count = random.pick(&[0, 1, 2, 3, n]).min(1_025);
            file.extend(count.to_le_bytes());
            file.extend((0..count).flat_map(|node| node.to_le_bytes()));
        }
        let mut last = (0, 0, 0);
        for record in 0..random.below(5) {
            let bits = if record == 0 { 7 } else { random.below(8) as u8 };
            let bits = if random.one_in(40) { random.number() as u8 } else { bits };
            add_record(random, &mut file, &mut last, bits);
        }
        compare::read(entries, &file)?;
    }
    Ok(tried)
}

fn noise(entries: &dyn Entries, random: &mut Random) -> Tried {
    let tried = 10_000;
    for _ in 0..tried {
        let values = random.pick(&[3, 8, 9, 256]);
        let file: Vec<u8> = (0..random.below(40)).map(|_| random.below(values) as u8).collect();
        compare::read(entries, &file)?;
    }
    Ok(tried)
}

fn limits(entries: &dyn Entries, random: &mut Random) -> Tried {
    let full = write_file(&RIGHT, &wide_table(1_024, 6_000, 1_024)).expect("the largest table can be written");
    if full.len() != LONGEST_FILE {
        return Err(format!("the longest file has {} bytes", full.len()));
    }
    let followed = |bytes: &[u8]| [&full[..], bytes].concat();
    let too_many_wanted = |count: u16| {
        let mut file = vec![5, 0, 4];
        file.extend(count.to_le_bytes());
        file.extend((0..count).flat_map(|_| [0, 0]));
        file
    };
    let mut files = vec![full.clone(), followed(&[7]), followed(&[255]), followed(&[0]), followed(&full)];
    files.push(vec![0; 100_000]);
    files.extend([1_024, 1_025, 65_535].map(too_many_wanted));
    files.extend([0_u16, 1, 1_024, 1_025, 65_535].map(|n| [&[1][..], &n.to_le_bytes()].concat()));
    files.extend((0..200).map(|_| full[..random.below(full.len())].to_vec()));
    files.iter().try_for_each(|file| compare::read(entries, file))?;
    let sizes = [(1_024, 6_000, 1_024), (1_024, 6_001, 3), (1_025, 3, 3), (3, 3, 1_025)];
    for (n, arcs, wanted) in sizes {
        let table = wide_table(n, arcs, wanted);
        [0, LONGEST_FILE - 1, LONGEST_FILE].iter().try_for_each(|&room| compare::write(entries, &table, room))?;
    }
    Ok(files.len() + 3 * sizes.len())
}
