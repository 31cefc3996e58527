//! The figures of 01, tables, and the entry points that the tests call: the product's and the model's.

pub use crate::abi::*;

pub const LONGEST_INPUT: usize = 65_536;
pub const LONGEST_ARC: u32 = DOWN - 1;

/// A link table, faulty or not.
#[derive(Clone, Debug, Default, PartialEq)]
pub struct Table {
    pub n: u32,
    pub origin: u16,
    pub tails: Vec<u16>,
    pub heads: Vec<u16>,
    pub lengths: Vec<u32>,
    pub wanted: Vec<u16>,
}

pub type Arc = (u16, u16, u32);

impl Table {
    pub fn new(n: u32, origin: u16, arcs: &[Arc], wanted: &[u16]) -> Table {
        Table {
            n,
            origin,
            tails: arcs.iter().map(|arc| arc.0).collect(),
            heads: arcs.iter().map(|arc| arc.1).collect(),
            lengths: arcs.iter().map(|arc| arc.2).collect(),
            wanted: wanted.to_vec(),
        }
    }

    /// The arcs of a table whose columns are equally long.
    pub fn arcs(&self) -> Vec<Arc> {
        (0..self.tails.len()).map(|p| (self.tails[p], self.heads[p], self.lengths[p])).collect()
    }

    /// The table without the arcs of that length, and the positions here of those that are left.
    pub fn without(&self, length: u32) -> (Table, Vec<usize>) {
        let places: Vec<usize> = (0..self.lengths.len()).filter(|&place| self.lengths[place] != length).collect();
        let all = self.arcs();
        let arcs: Vec<Arc> = places.iter().map(|&place| all[place]).collect();
        (Table::new(self.n, self.origin, &arcs, &self.wanted), places)
    }

    /// The table with each arc's tail and head exchanged; the positions are kept.
    pub fn exchanged(&self) -> Table {
        Table { tails: self.heads.clone(), heads: self.tails.clone(), ..self.clone() }
    }

    pub fn columns(&self) -> Columns<'_> {
        Columns { tails: &self.tails, heads: &self.heads, lengths: &self.lengths }
    }

    pub fn columns_equal(&self) -> bool {
        self.tails.len() == self.heads.len() && self.tails.len() == self.lengths.len()
    }
}

/// What listing a path takes, beside its out buffer.
#[derive(Clone, Debug)]
pub struct Listing {
    pub origin: u16,
    pub node: u16,
    pub tails: Vec<u16>,
    pub heads: Vec<u16>,
    pub tree: Vec<u16>,
}

impl Listing {
    /// With each arc's tail and head exchanged.
    pub fn exchanged(&self) -> Listing {
        Listing { tails: self.heads.clone(), heads: self.tails.clone(), ..self.clone() }
    }
}

/// The numbers that a test load is made of.
#[derive(Clone, Copy, Debug, PartialEq)]
pub struct Load {
    pub n: u32,
    pub seed: u32,
    pub chance: u32,
    pub largest: u32,
}

/// The chance that gives every pair an arc.
pub const CERTAIN: u32 = 65_536;

/// A ground's number and place.
#[derive(Clone, Copy, Debug, PartialEq)]
pub struct Refusal {
    pub number: u32,
    pub place: u32,
}

pub fn refuse<T>(number: u32, place: usize) -> Result<T, Refusal> {
    Err(Refusal { number, place: place as u32 })
}

/// The nine functions of the library, and the program from its standard input to its standard output. In the two that
/// go to a collector it stands as the origin, and the senders as the wanted nodes.
pub trait Entries: Sync {
    fn plan(&self, table: &Table, out: PlanBuffers) -> Planned;
    fn plan_to_collector(&self, table: &Table, out: PlanBuffers) -> Planned;
    /// Whether the node is within the limit; the table's wanted list is not looked at.
    fn within(&self, table: &Table, node: u16, limit: u64) -> Within;
    fn list(&self, listing: &Listing, output: &mut [u16]) -> Listed;
    fn list_to_collector(&self, listing: &Listing, output: &mut [u16]) -> Listed;
    /// Which of the two paths is kept.
    fn keep(&self, n: u32, columns: Columns, standing: &[u16], fresh: &[u16]) -> Kept;
    fn read(&self, file: &[u8], out: ReadBuffers) -> TableRead;
    fn write(&self, table: &Table, output: &mut [u8]) -> Written;
    fn make(&self, load: &Load, out: LoadBuffers) -> Made;
    fn print(&self, file: &[u8]) -> Result<String, String>;
}
