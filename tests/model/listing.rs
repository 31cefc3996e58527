//! "Listing a path".

use super::{Model, Wrong};
use crate::rules::*;

/// The grounds 1, 2, 4 and 5 in order.
pub fn test_listing(listing: &Listing) -> Result<(), Refusal> {
    let (n, m) = (listing.tree.len(), listing.tails.len());
    if n == 0 || n > MOST_NODES {
        return refuse(1, 0);
    }
    if m != listing.heads.len() || m > MOST_ARCS {
        return refuse(2, 0);
    }
    if listing.origin as usize >= n {
        return refuse(4, 0);
    }
    if listing.node as usize >= n {
        return refuse(5, 0);
    }
    Ok(())
}

impl Model {
    pub fn nodes_of_path(&self, listing: &Listing, room: usize) -> Result<Vec<u16>, Refusal> {
        test_listing(listing)?;
        if self.has(Wrong::ShortBufferFirst) && room == 0 {
            return refuse(13, 0);
        }
        let nodes = self.nodes_back_to_origin(listing)?;
        if nodes.len() > room {
            return refuse(13, 0);
        }
        Ok(nodes)
    }

    fn nodes_back_to_origin(&self, listing: &Listing) -> Result<Vec<u16>, Refusal> {
        let (n, m) = (listing.tree.len(), listing.tails.len());
        if self.has(Wrong::OriginsEntryRead) && listing.tree[listing.origin as usize] != NO_ARC {
            return refuse(14, 0);
        }
        let mut nodes = vec![listing.node];
        let mut node = listing.node;
        while node != listing.origin {
            let arc = listing.tree[node as usize] as usize;
            if nodes.len() > n - 1 || arc >= m || listing.tails[arc] as usize >= n {
                return refuse(14, 0);
            }
            if listing.heads[arc] != node && !self.has(Wrong::WrongHeadAccepted) {
                return refuse(14, 0);
            }
            node = listing.tails[arc];
            nodes.push(node);
        }
        nodes.reverse();
        Ok(nodes)
    }
}
