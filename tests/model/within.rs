//! "Is it within a limit?"

use super::auction::Auction;
use super::{Model, Wrong};
use crate::rules::*;

impl Model {
    /// The auction for this one node, ended by the limit.
    pub fn within_limit(&self, table: &Table, node: u16, limit: u64) -> Within {
        let table = Table { wanted: vec![node], ..table.clone() };
        if let Err(Refusal { number, place }) = self.test_asked(&table) {
            let place = if number == 5 && self.has(Wrong::AskedPlaceIsNode) { node as u32 } else { place };
            return Within { number, place, ..Within::default() };
        }
        let limit = if self.has(Wrong::LimitCutTo32Bits) { limit % (1 << 32) } else { limit };
        let (present, _) = table.without(if self.has(Wrong::DownLinksWithin) { 0 } else { self.down() });
        let mut auction = Auction::new(self, &present);
        auction.run(if self.has(Wrong::LimitComparedAfterRun) { None } else { Some(limit) });
        self.tell(&auction, node as usize, limit)
    }

    /// The grounds of a wanted list of one. There are no buffers, so never 3.
    fn test_asked(&self, table: &Table) -> Result<(), Refusal> {
        if self.has(Wrong::AskedNodeTestedLast) {
            self.test_table(&Table { wanted: vec![], ..table.clone() }, true)?;
        }
        self.test_table(table, true)
    }

    /// Yes where the run reached the node. A node without a walk is no ground, so never 8.
    fn tell(&self, auction: &Auction, node: usize, limit: u64) -> Within {
        let (reached, passed) = (auction.reached[node], auction.has_passed(Some(limit)));
        let within = match self.wrong {
            Some(Wrong::PassedIsWithin) => reached || passed,
            Some(Wrong::LimitComparedAfterRun) => reached && !passed,
            _ => reached,
        };
        let refused = self.has(Wrong::NoWalkRefused) && !reached && !passed;
        let uncounted = self.has(Wrong::PassingUncounted) && passed;
        Within {
            number: if refused { 8 } else { 0 },
            place: 0,
            within: within as u32,
            iterations: auction.iterations() - uncounted as u64,
        }
    }
}
