//! Which of two paths is kept.

use super::{Model, Wrong};
use crate::rules::*;

impl Model {
    /// The table's origin is 0 and nothing is wanted.
    pub fn keep_path(&self, table: &Table, standing: &[u16], fresh: &[u16]) -> Kept {
        match self.stands(table, standing, fresh) {
            Ok(true) => {
                let kept = if self.has(Wrong::FreshCountGiven) { fresh } else { standing };
                Kept { standing: 1, count: kept.len() as u32, ..Kept::default() }
            }
            Ok(false) => Kept { count: fresh.len() as u32, ..Kept::default() },
            Err(Refusal { number, place }) => {
                let count = if self.has(Wrong::RefusalCountsFresh) { fresh.len() as u32 } else { 0 };
                Kept { number, place, standing: 0, count }
            }
        }
    }

    /// Whether the standing path is kept. The grounds are the table's, then 15 for the fresh path.
    fn stands(&self, table: &Table, standing: &[u16], fresh: &[u16]) -> Result<bool, Refusal> {
        let tested = self.test_links(table);
        let walk_first = self.has(Wrong::WalkTestedBeforeArcs) && tested.is_err_and(|refusal| refusal.number >= 6);
        if !walk_first {
            tested?;
        }
        let fresh_total = self.fresh_total(table, fresh)?;
        tested?;
        if standing.is_empty() && self.has(Wrong::EmptyStandingKept) {
            return Ok(true);
        }
        let most = if self.has(Wrong::LongStandingKept) { usize::MAX } else { MOST_NODES };
        match self.total(table, standing, most) {
            Ok(total) => Ok(self.same_ends(standing, fresh) && self.at_most(total, fresh_total)),
            Err(_) if self.has(Wrong::StandingRefused) => refuse(15, 0),
            Err(_) => Ok(false),
        }
    }

    /// The grounds 1, 2, 6 and 7: those of a plan for nothing from node 0, with buffers that fit.
    fn test_links(&self, table: &Table) -> Result<(), Refusal> {
        let wrong = if self.has(Wrong::KeepingDownUntested) { Some(Wrong::DownLinksUntested) } else { None };
        Model { wrong }.test_table(table, true)
    }

    fn fresh_total(&self, table: &Table, fresh: &[u16]) -> Result<u64, Refusal> {
        let most = if self.has(Wrong::LongFreshTaken) { usize::MAX } else { MOST_NODES };
        match self.total(table, fresh, most) {
            Ok(total) => Ok(total),
            Err(_) if fresh.is_empty() && self.has(Wrong::EmptyFreshTaken) => Ok(0),
            Err(_) if self.has(Wrong::FreshUntested) => Ok(u64::MAX),
            Err(step) => refuse(15, if self.has(Wrong::NoWalkPlaceIsStep) { step } else { 0 }),
        }
    }

    fn same_ends(&self, standing: &[u16], fresh: &[u16]) -> bool {
        let same_start = standing.first() == fresh.first() || self.has(Wrong::StandingStartUncompared);
        let same_end = standing.last() == fresh.last() || self.has(Wrong::StandingEndUncompared);
        same_start && same_end
    }

    fn at_most(&self, standing: u64, fresh: u64) -> bool {
        match self.wrong {
            Some(Wrong::EqualStandingDropped) => standing < fresh,
            Some(Wrong::TotalsCutTo32Bits) => standing as u32 <= fresh as u32,
            _ => standing <= fresh,
        }
    }

    /// The total of a walk of at most so many nodes. Where the list is none: at which step.
    fn total(&self, table: &Table, nodes: &[u16], most: usize) -> Result<u64, usize> {
        let full = nodes.len() == MOST_NODES && self.has(Wrong::FullListRefused);
        let lone = nodes.len() == 1 && self.has(Wrong::LoneNodeRefused);
        if nodes.is_empty() || nodes.len() > most || full || lone {
            return Err(0);
        }
        let beyond = nodes.iter().position(|&node| node as u32 >= table.n);
        match beyond {
            Some(place) if !self.has(Wrong::LoneNodeUntested) => return Err(place),
            _ => {}
        }
        let arcs = table.arcs();
        let steps = nodes.len() - 1 - (nodes.len() > 1 && self.has(Wrong::LastStepUncounted)) as usize;
        let mut total = 0;
        for step in 0..steps {
            total += self.length_of_step(&arcs, nodes[step], nodes[step + 1]).ok_or(step)?;
        }
        Ok(total)
    }

    /// The length of the shortest present arc from one node to the other.
    fn length_of_step(&self, arcs: &[Arc], from: u16, to: u16) -> Option<u64> {
        if from == to && self.has(Wrong::RepeatNeedsNoLoop) {
            return Some(0);
        }
        let ends = if self.has(Wrong::StepBackwards) { (to, from) } else { (from, to) };
        let present = |length: u32| match self.wrong {
            Some(Wrong::StepOverDown) => true,
            Some(Wrong::LongestStepAbsent) => length < LONGEST_ARC,
            _ => length != DOWN,
        };
        let between = arcs.iter().filter(|arc| (arc.0, arc.1) == ends && present(arc.2));
        let mut lengths = between.map(|arc| arc.2 as u64);
        match self.wrong {
            Some(Wrong::StepByLongest) => lengths.max(),
            Some(Wrong::StepByFirst) => lengths.next(),
            Some(Wrong::StepByLast) => lengths.last(),
            _ => lengths.min(),
        }
    }
}
