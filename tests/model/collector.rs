//! "Everyone to the collector".

use super::listing::test_listing;
use super::{Model, Wrong};
use crate::rules::*;

impl Model {
    /// The plan of the table with tails and heads exchanged.
    pub fn plan_exchanged(&self, table: &Table, out: PlanBuffers) -> Planned {
        let table = if self.has(Wrong::ColumnsNotExchanged) { table.clone() } else { table.exchanged() };
        Model { wrong: self.planners_fault() }.plan_routes(&table, out)
    }

    /// The fault of the planner where it plans to a collector.
    fn planners_fault(&self) -> Option<Wrong> {
        match self.wrong {
            Some(Wrong::CollectorTieByLatest) => Some(Wrong::TieByLatest),
            Some(Wrong::CollectorPricesAreDistances) => Some(Wrong::PricesAreDistances),
            Some(Wrong::CollectorDownLinksUsed) => Some(Wrong::DownLinksUsed),
            Some(Wrong::SenderPlaceIsNode) => Some(Wrong::PlaceIsNode),
            other => other,
        }
    }

    /// The nodes from the sender to the collector.
    pub fn nodes_to_collector(&self, listing: &Listing, room: usize) -> Result<Vec<u16>, Refusal> {
        test_listing(listing)?;
        if self.has(Wrong::CollectorRoomFirst) && room == 0 {
            return refuse(13, 0);
        }
        let mut nodes = self.nodes_on_to_collector(listing)?;
        if nodes.len() > room {
            return refuse(13, 0);
        }
        if self.has(Wrong::CollectorListedFirst) {
            nodes.reverse();
        }
        Ok(nodes)
    }

    /// From each node its entry's arc leads on to the next.
    fn nodes_on_to_collector(&self, listing: &Listing) -> Result<Vec<u16>, Refusal> {
        let n = listing.tree.len();
        if self.has(Wrong::CollectorsEntryRead) && listing.tree[listing.origin as usize] != NO_ARC {
            return refuse(14, 0);
        }
        let mut nodes = vec![listing.node];
        let mut node = listing.node;
        while node != listing.origin {
            let arc = listing.tree[node as usize] as usize;
            if nodes.len() == n || arc >= listing.tails.len() {
                return refuse(14, 0);
            }
            let (tail, head) = (listing.tails[arc], listing.heads[arc]);
            let leaves_node = match self.wrong {
                Some(Wrong::EntryNotMirrored) => head == node,
                Some(Wrong::WrongTailAccepted) => true,
                _ => tail == node,
            };
            if !leaves_node || head as usize >= n {
                return refuse(14, 0);
            }
            node = head;
            nodes.push(node);
        }
        Ok(nodes)
    }
}
