//! "Link file": the reader and the writer.

use super::{Model, Wrong};
use crate::rules::*;

/// The unread part of a file.
struct Cursor<'a> {
    file: &'a [u8],
    at: usize,
}

impl Cursor<'_> {
    /// The next little-endian field of that many bytes.
    fn field(&mut self, width: usize) -> Result<u32, Refusal> {
        match self.file.get(self.at..self.at + width) {
            None => refuse(9, self.file.len()),
            Some(bytes) => {
                self.at += width;
                Ok(bytes.iter().rev().fold(0, |value, &byte| value << 8 | byte as u32))
            }
        }
    }

    fn node(&mut self) -> Result<u16, Refusal> {
        Ok(self.field(2)? as u16)
    }
}

impl Model {
    pub fn read_into(&self, file: &[u8], out: ReadBuffers) -> TableRead {
        let mut table = Table::default();
        let shortest = out.tails.len().min(out.heads.len()).min(out.lengths.len());
        let refusal = match shortest < MOST_ARCS || out.wanted.len() < MOST_WANTED {
            true => refuse(3, 0),
            false => self.table_of(file, &mut table),
        };
        if refusal.is_ok() || self.has(Wrong::RefusedFileFills) {
            out.tails[..table.tails.len()].copy_from_slice(&table.tails);
            out.heads[..table.heads.len()].copy_from_slice(&table.heads);
            out.lengths[..table.lengths.len()].copy_from_slice(&table.lengths);
            out.wanted[..table.wanted.len()].copy_from_slice(&table.wanted);
        }
        match refusal {
            Ok(()) => TableRead {
                n: table.n,
                origin: table.origin,
                arcs: table.tails.len() as u32,
                wanted: table.wanted.len() as u32,
                ..TableRead::default()
            },
            Err(Refusal { number, place }) => TableRead { number, place, ..TableRead::default() },
        }
    }

    /// Reads the file from left to right, up to its first fault.
    pub fn table_of(&self, file: &[u8], table: &mut Table) -> Result<(), Refusal> {
        let mut cursor = Cursor { file, at: 0 };
        self.read_header(&mut cursor, table)?;
        let mut previous = None;
        while cursor.at < file.len() {
            let full = table.tails.len() == MOST_ARCS;
            if full && !self.has(Wrong::ArcCountTestedLate) {
                return refuse(2, MOST_ARCS);
            }
            let arc = self.read_record(&mut cursor, previous)?;
            if full {
                return refuse(2, MOST_ARCS);
            }
            table.tails.push(arc.0);
            table.heads.push(arc.1);
            table.lengths.push(arc.2);
            previous = Some(arc);
        }
        Ok(())
    }

    fn read_header(&self, cursor: &mut Cursor, table: &mut Table) -> Result<(), Refusal> {
        let bits = cursor.field(1)?;
        if bits > 7 || bits & 1 == 0 {
            return refuse(10, 0);
        }
        table.n = cursor.field(2)?;
        if table.n == 0 || table.n as usize > MOST_NODES {
            return refuse(1, 0);
        }
        if bits & 2 != 0 {
            table.origin = cursor.node()?;
        }
        let all_nodes: Vec<u16> = (0..table.n as u16).collect();
        if bits & 4 != 0 {
            self.read_wanted(cursor, table)?;
        } else {
            table.wanted = all_nodes.clone();
        }
        let needless = bits & 2 != 0 && table.origin == 0 || bits & 4 != 0 && table.wanted == all_nodes;
        if needless && !self.has(Wrong::NeedlessFieldsAccepted) {
            return refuse(12, 0);
        }
        Ok(())
    }

    fn read_wanted(&self, cursor: &mut Cursor, table: &mut Table) -> Result<(), Refusal> {
        let count = cursor.field(2)? as usize;
        let too_many = count > MOST_WANTED;
        if too_many && !self.has(Wrong::WantedCountTestedLate) {
            return refuse(5, MOST_WANTED);
        }
        let nodes: Result<Vec<u16>, Refusal> = (0..count).map(|_| cursor.node()).collect();
        let nodes = nodes?;
        if too_many {
            return refuse(5, MOST_WANTED);
        }
        table.wanted = nodes;
        Ok(())
    }

    fn read_record(&self, cursor: &mut Cursor, previous: Option<Arc>) -> Result<Arc, Refusal> {
        let start = cursor.at;
        let bits = cursor.field(1)?;
        if bits > 7 || previous.is_none() && bits != 7 {
            return refuse(10, start);
        }
        let tail = if bits & 1 != 0 { Some(cursor.node()?) } else { None };
        let head = if bits & 2 != 0 { Some(cursor.node()?) } else { None };
        let length = if bits & 4 != 0 { Some(cursor.field(4)?) } else { None };
        let (last_tail, last_head, last_length) = match previous {
            Some(arc) => arc,
            None => return Ok((tail.unwrap(), head.unwrap(), length.unwrap())),
        };
        let wraps = self.has(Wrong::ImpliedHeadWraps);
        let implied = if wraps { Some(last_head.wrapping_add(1)) } else { last_head.checked_add(1) };
        let needless = tail == Some(last_tail) || head.is_some() && head == implied || length == Some(last_length);
        let needless = needless && !self.has(Wrong::NeedlessFieldsAccepted);
        if needless && self.has(Wrong::NeedlessBeforeImpliedHead) {
            return refuse(12, start);
        }
        match head.or(implied) {
            None => refuse(11, start),
            Some(_) if needless => refuse(12, start),
            Some(head) => Ok((tail.unwrap_or(last_tail), head, length.unwrap_or(last_length))),
        }
    }

    /// The file of a table, for an out buffer with that much room.
    pub fn file_of(&self, table: &Table, room: usize) -> Result<Vec<u8>, Refusal> {
        if table.n == 0 || table.n as usize > MOST_NODES {
            return refuse(1, 0);
        }
        if !table.columns_equal() || table.tails.len() > MOST_ARCS {
            return refuse(2, 0);
        }
        if table.wanted.len() > MOST_WANTED {
            return refuse(5, MOST_WANTED);
        }
        let mut file = self.header_bytes(table);
        let mut previous = None;
        for arc in table.arcs() {
            file.extend(self.record_bytes(arc, previous));
            previous = Some(arc);
        }
        if file.len() > room {
            return refuse(13, 0);
        }
        Ok(file)
    }

    fn header_bytes(&self, table: &Table) -> Vec<u8> {
        let omitted = self.has(Wrong::EmptyWantedListOmitted) && table.wanted.is_empty();
        let lists_wanted = !omitted && !table.wanted.iter().copied().eq(0..table.n as u16);
        let has_origin = table.origin != 0;
        let mut bytes = vec![1 | (has_origin as u8) << 1 | (lists_wanted as u8) << 2];
        bytes.extend((table.n as u16).to_le_bytes());
        if has_origin {
            bytes.extend(table.origin.to_le_bytes());
        }
        if lists_wanted {
            bytes.extend((table.wanted.len() as u16).to_le_bytes());
            bytes.extend(table.wanted.iter().flat_map(|node| node.to_le_bytes()));
        }
        bytes
    }

    fn record_bytes(&self, arc: Arc, previous: Option<Arc>) -> Vec<u8> {
        let (tail, head, length) = arc;
        let wraps = self.has(Wrong::HeadZeroAfterLastOmitted);
        let says_head = |last: u16| if wraps { last.wrapping_add(1) == head } else { last.checked_add(1) == Some(head) };
        let has_tail = previous.map_or(true, |last| last.0 != tail);
        let has_head = previous.map_or(true, |last| !says_head(last.1));
        let has_length = previous.map_or(true, |last| last.2 != length);
        let mut bytes = vec![has_tail as u8 | (has_head as u8) << 1 | (has_length as u8) << 2];
        if has_tail {
            bytes.extend(tail.to_le_bytes());
        }
        if has_head {
            bytes.extend(head.to_le_bytes());
        }
        if has_length {
            bytes.extend(length.to_le_bytes());
        }
        bytes
    }
}
