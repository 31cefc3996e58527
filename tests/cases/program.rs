//! The program `routes`: what it prints for files of every kind, and inputs and outputs that are not files.

use super::*;
use crate::compare::{self, write_file};
use crate::model::RIGHT;
use crate::product::{Product, Unread};
use crate::shapes;

pub const GROUPS: &[Group] = &[
    Group { name: "program: refused files", run: refused },
    Group { name: "program: the order of the path lines", run: path_order },
    Group { name: "program: the line of the marks", run: marks },
    Group { name: "program: random tables", run: random_tables },
    Group { name: "program: long sheets", run: long_sheets },
    Group { name: "program: input of about 65,536 bytes", run: long_inputs },
];

fn refused(entries: &dyn Entries, _: &mut Random) -> Tried {
    let file = |table: &Table| write_file(&RIGHT, table).expect("such tables can be written");
    let mut inputs: Vec<Vec<u8>> = (0..=EXAMPLE_FILE.len()).map(|length| EXAMPLE_FILE[..length].to_vec()).collect();
    inputs.extend((0..=255).map(|byte| vec![byte]));
    inputs.push([EXAMPLE_FILE, b"\n"].concat());
    inputs.push(file(&Table { origin: 4, ..example(4, &[3]) }));
    inputs.push(file(&example(4, &[3, 4])));
    inputs.push(file(&Table::new(1, 0, &[(0, 1, 1)], &[])));
    inputs.push(file(&Table::new(2, 0, &[(0, 1, 1), (0, 1, 0)], &[])));
    inputs.push(file(&Table::new(2, 0, &[], &[1])));
    inputs.push(file(&example(5, &[4, 3])));
    inputs.push(file(&example(4, &[])));
    inputs.push(file(&example(4, &[3, 0, 3, 0, 3])));
    inputs.iter().try_for_each(|input| compare::print(entries, input))?;
    Ok(inputs.len())
}

/// The nodes of the path lines, from the first line to the last: by distance, and at equal distances by node number.
fn path_order(entries: &dyn Entries, _: &mut Random) -> Tried {
    let backwards = &[(4, 3, 1), (3, 2, 1), (2, 1, 1), (1, 0, 1)];
    let rows: [(Table, &[u16]); 9] = [
        (Table::new(3, 0, &[(0, 1, 5), (0, 2, 2)], &[1, 2, 1]), &[2, 1]),
        (Table::new(3, 0, &[(0, 2, 2), (0, 1, 2)], &[2, 1, 0]), &[0, 1, 2]),
        (Table::new(3, 0, &[(0, 2, LONGEST_ARC), (0, 1, LONGEST_ARC)], &[2, 2, 1, 2]), &[1, 2]),
        (Table::new(5, 4, backwards, &[0, 1, 2, 3, 4, 0]), &[4, 3, 2, 1, 0]),
        (example(4, &[3, 2, 1, 0]), &[0, 1, 2, 3]),
        (example(4, &[3, 0, 3, 0, 3]), &[0, 3]),
        (example(5, &[4, 2, 4, 1]), &[1, 2]),
        (example(4, &[]), &[]),
        (example(4, &[3, 4]), &[]),
    ];
    for (table, nodes) in &rows {
        let file = write_file(&RIGHT, table).expect("such tables can be written");
        compare::print(entries, &file)?;
        let sheet = entries.print(&file)?;
        let word = |line: &'_ str| line.strip_prefix("path ").and_then(|rest| rest.split(':').next()).map(str::to_string);
        let listed: Vec<String> = sheet.lines().filter_map(word).collect();
        if listed != nodes.iter().map(u16::to_string).collect::<Vec<_>>() {
            return Err(format!("the path lines must be those of {nodes:?}: {sheet:?} of {table:?}"));
        }
    }
    Ok(rows.len())
}

/// The last line of every sheet that lists nodes, and of no other.
fn marks(entries: &dyn Entries, _: &mut Random) -> Tried {
    let rows = [
        (example(4, &[3]), "marks 0 2 0 3"),
        (example(4, &[1]), "marks 1 1 2 1"),
        (example(4, &[]), "marks 3 0 2 0"),
        (example(5, &[4]), "marks 0 2 0 3"),
        (Table::new(1, 0, &[], &[0]), "marks 0 0 0 0"),
        (Table::new(1, 0, &[(0, 0, 1)], &[0]), "marks 0 1 0 0"),
        (Table::new(2, 0, &[(0, 1, 4), (0, 1, 4)], &[1]), "marks 0 1 0 1"),
        (Table::new(2, 0, &[], &[1]), "marks 0 0 0 0"),
        // Links between nodes that cannot be reached, and a link from one of them to the origin.
        (Table::new(3, 0, &[(1, 2, 5), (2, 1, 5), (2, 0, 5)], &[2]), "marks 2 1 0 0"),
        (Table { origin: 4, ..example(4, &[3]) }, "refused 4 at 0"),
        (example(4, &[3, 4]), "refused 5 at 1"),
        (Table::new(1, 0, &[(0, 1, 1)], &[]), "refused 6 at 0"),
        (Table::new(2, 0, &[(0, 1, 1), (0, 1, 0)], &[]), "refused 7 at 1"),
    ];
    for (table, last) in &rows {
        let file = write_file(&RIGHT, table).expect("such tables can be written");
        compare::print(entries, &file)?;
        let sheet = entries.print(&file)?;
        let marked = sheet.lines().filter(|line| line.starts_with("marks")).count();
        if sheet.lines().last() != Some(last) || marked != last.starts_with("marks") as usize {
            return Err(format!("the last line must be {last:?}: {sheet:?} of {table:?}"));
        }
    }
    Ok(rows.len())
}

fn random_tables(entries: &dyn Entries, random: &mut Random) -> Tried {
    let tried = 600;
    for _ in 0..tried {
        let shape = random.pick(&shapes::SHAPES);
        let n = random.pick(&[1, 2, 4, 8, 30]);
        let table = shapes::table(random, shape, n);
        let file = write_file(&RIGHT, &table).expect("such tables can be written");
        compare::print(entries, &file)?;
    }
    Ok(tried)
}

fn long_sheets(entries: &dyn Entries, _: &mut Random) -> Tried {
    let whole = wide_table(1_024, 6_000, 1_024);
    let repeated = Table { wanted: vec![1_023; 1_024], ..chain(1_024, 1) };
    let turned = Table { wanted: (0..1_024).rev().collect(), ..chain(1_024, 1) };
    let tables = [chain(1_024, 1), chain(1_024, LONGEST_ARC), chain(100, LONGEST_ARC), whole, repeated, turned];
    for table in &tables {
        compare::print(entries, &write_file(&RIGHT, table).expect("such tables can be written"))?;
    }
    Ok(tables.len())
}

fn long_inputs(entries: &dyn Entries, _: &mut Random) -> Tried {
    let whole = write_file(&RIGHT, &wide_table(1_024, 6_000, 1_024)).expect("the largest table can be written");
    let mut inputs = Vec::new();
    for length in [65_535, 65_536, 65_537, 200_000] {
        for start in [&[], EXAMPLE_FILE, &whole[..]] {
            let mut input = start.to_vec();
            input.resize(length, 7);
            inputs.push(input);
        }
    }
    inputs.iter().try_for_each(|input| compare::print(entries, input))?;
    Ok(inputs.len())
}

/// What only a program can be tried on: input in pieces, without an end or unreadable, output unwritable.
pub fn pipes(product: &Product) -> Tried {
    let whole = write_file(&RIGHT, &wide_table(1_024, 6_000, 1_024)).expect("the largest table can be written");
    for (input, piece) in [(EXAMPLE_FILE, 1), (EXAMPLE_FILE, 3), (&whole, 4_096), (&whole, 997)] {
        compare::same_sheet(&product.print_in_pieces(input, piece)?, input)?;
    }
    let endless = vec![0; LONGEST_INPUT + 1];
    compare::same_sheet(&product.print_of("/dev/zero")?, &endless)?;
    compare::same_sheet(&product.print_of("/dev/null")?, &[])?;
    // A folder cannot be read; that counts as the end of the input.
    compare::same_sheet(&product.print_of("/")?, &[])?;
    for output in [Unread::Closed, Unread::Abandoned, Unread::Full] {
        product.end_unread(&whole, output).map_err(|fault| format!("output {output:?}: {fault}"))?;
    }
    Ok(10)
}
