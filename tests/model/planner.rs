//! "What the run hands over" and the grounds 1 to 8.

use super::auction::Auction;
use super::{Model, Wrong};
use crate::rules::*;

impl Model {
    pub fn plan_routes(&self, table: &Table, out: PlanBuffers) -> Planned {
        if let Err(Refusal { number, place }) = self.test_table(table, fit(table, &out)) {
            return Planned { number, place, ..Planned::default() };
        }
        let (present, places) = table.without(self.down());
        let mut auction = Auction::new(self, &present);
        auction.run(None);
        self.hand_over(&present, &places, &auction, out)
    }

    /// The length of the arcs that are down; none has length 0.
    pub fn down(&self) -> u32 {
        match self.wrong {
            Some(Wrong::DownByOneLess) => DOWN - 1,
            Some(Wrong::DownLinksUsed) => 0,
            _ => DOWN,
        }
    }

    /// The grounds 1 to 7 in order.
    pub fn test_table(&self, table: &Table, buffers_fit: bool) -> Result<(), Refusal> {
        let n = table.n as usize;
        let m = table.tails.len();
        if n == 0 || n > MOST_NODES {
            return refuse(1, 0);
        }
        if !table.columns_equal() || m > MOST_ARCS {
            return refuse(2, 0);
        }
        if !buffers_fit {
            return refuse(3, 0);
        }
        if table.origin as usize >= n {
            return refuse(4, 0);
        }
        if table.wanted.len() > MOST_WANTED {
            return refuse(5, MOST_WANTED);
        }
        if let Some(index) = table.wanted.iter().position(|&node| node as usize >= n) {
            return refuse(5, index);
        }
        self.test_arcs(table, n)
    }

    fn test_arcs(&self, table: &Table, n: usize) -> Result<(), Refusal> {
        let untested = |p: usize| self.has(Wrong::DownLinksUntested) && table.lengths[p] == DOWN;
        let bad_end = |p: usize| (table.tails[p] as usize >= n || table.heads[p] as usize >= n) && !untested(p);
        let zero = |p: usize| table.lengths[p] == 0;
        let m = table.tails.len();
        if self.has(Wrong::EndsOfAllArcsFirst) {
            if let Some(position) = (0..m).find(|&p| bad_end(p)) {
                return refuse(6, position);
            }
        }
        for position in 0..m {
            if self.has(Wrong::LengthBeforeEnds) && zero(position) {
                return refuse(7, position);
            }
            if bad_end(position) {
                return refuse(6, position);
            }
            if zero(position) {
                return refuse(7, position);
            }
        }
        Ok(())
    }

    /// What the run on the table without its down arcs hands over, its arcs told by their places in the whole table.
    fn hand_over(&self, table: &Table, places: &[usize], auction: &Auction, out: PlanBuffers) -> Planned {
        let reached = |node: &usize| auction.reached[*node];
        let nodes = 0..table.n as usize;
        let from_raw_price = self.has(Wrong::HorizonFromRawPrice);
        let horizon = if from_raw_price { auction.prices[table.origin as usize] } else { auction.horizon() };
        for node in nodes.clone() {
            let (distance, price, arc) = self.node_entries(places, auction, node, horizon);
            out.distances[node] = distance;
            out.prices[node] = price;
            out.tree[node] = arc;
        }
        out.marks.fill(if self.has(Wrong::DownLinksUnmarked) { 0 } else { 1 });
        for (position, &place) in places.iter().enumerate() {
            out.marks[place] = self.mark(table, auction, position);
        }
        let missing = table.wanted.iter().position(|&node| !auction.reached[node as usize]);
        let place_of = |index: usize| if self.has(Wrong::PlaceIsNode) { table.wanted[index] as u32 } else { index as u32 };
        Planned {
            number: if missing.is_some() { 8 } else { 0 },
            place: missing.map_or(0, place_of),
            reached: nodes.filter(reached).count() as u32,
            horizon,
            iterations: auction.iterations(),
            contractions: auction.contractions,
            extensions: auction.extensions,
            deletions: auction.deletions,
            scans: match self.wrong {
                Some(Wrong::ScansByKind) => auction.contractions + auction.deletions,
                Some(Wrong::EachIterationScans) => auction.iterations(),
                _ => auction.scans,
            },
        }
    }

    /// A node's distance, price and tree entry.
    fn node_entries(&self, places: &[usize], auction: &Auction, node: usize, horizon: u64) -> (u64, u64, u16) {
        if !auction.reached[node] {
            return (NO_DISTANCE, 0, NO_ARC);
        }
        let distance = auction.bounds[node].unwrap();
        let price = match self.wrong {
            Some(Wrong::RawPrices) => auction.prices[node],
            Some(Wrong::PricesAreDistances) => distance,
            _ => horizon - distance,
        };
        let place = |arc: usize| if self.has(Wrong::DownLinksClosedUp) { arc } else { places[arc] };
        (distance, price, auction.kept[node].map_or(NO_ARC, |arc| place(arc) as u16))
    }

    fn mark(&self, table: &Table, auction: &Auction, position: usize) -> u8 {
        let (tail, head) = (table.tails[position] as usize, table.heads[position] as usize);
        let kept = auction.kept[head] == Some(position);
        match (auction.reached[tail], auction.reached[head]) {
            (_, true) if kept => 3,
            (false, true) if self.has(Wrong::UnreachedTailUnmarked) => 0,
            (_, true) => 1,
            (true, false) if kept => 2,
            (true, false) => 1,
            (false, false) => 0,
        }
    }
}

/// The four buffers are n and m long.
fn fit(table: &Table, out: &PlanBuffers) -> bool {
    let n = table.n as usize;
    [out.distances.len(), out.prices.len(), out.tree.len()] == [n; 3] && out.marks.len() == table.tails.len()
}
