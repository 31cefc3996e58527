//! "The auction's state and its steps".

use super::{Model, Wrong};
use crate::rules::*;

const WRONG_CAP: u64 = 1_000_000;

/// What a node remembers of its last scan.
struct Scan {
    /// The arcs to its children.
    children: Vec<usize>,
    /// The remembered child, which is the best, and its price.
    best: Option<(usize, u64)>,
}

pub struct Auction<'a> {
    table: &'a Table,
    model: &'a Model,
    /// For each node its outgoing arcs in table order.
    outgoing: Vec<Vec<usize>>,
    path: Vec<usize>,
    deleted: Vec<bool>,
    /// For each node its last scan; none before the first.
    last_scans: Vec<Option<Scan>>,
    /// Every wanted node has been reached.
    stopped: bool,
    pub prices: Vec<u64>,
    pub bounds: Vec<Option<u64>>,
    pub kept: Vec<Option<usize>>,
    pub reached: Vec<bool>,
    pub contractions: u64,
    pub extensions: u64,
    pub deletions: u64,
    pub scans: u64,
}

impl<'a> Auction<'a> {
    pub fn new(model: &'a Model, table: &'a Table) -> Auction<'a> {
        let n = table.n as usize;
        let origin = table.origin as usize;
        let mut outgoing = vec![Vec::new(); n];
        for (position, &tail) in table.tails.iter().enumerate() {
            outgoing[tail as usize].push(position);
        }
        let mut bounds = vec![None; n];
        bounds[origin] = Some(0);
        Auction {
            table,
            model,
            outgoing,
            path: vec![origin],
            deleted: vec![false; n],
            last_scans: (0..n).map(|_| None).collect(),
            stopped: false,
            prices: vec![0; n],
            bounds,
            kept: vec![None; n],
            reached: vec![false; n],
            contractions: 0,
            extensions: 0,
            deletions: 0,
            scans: 0,
        }
    }

    /// Reaches the origin, then iterates until every wanted node is reached, the origin's price is above the limit, where
    /// there is one, or the origin has no children.
    pub fn run(&mut self, limit: Option<u64>) {
        self.reach(self.table.origin as usize);
        if self.model.has(Wrong::FirstStopForgotten) {
            self.iteration();
        }
        while !self.stopped && !self.has_passed(limit) && !self.at_wrong_cap() && self.iteration() {}
    }

    /// The origin's price is above the limit.
    pub fn has_passed(&self, limit: Option<u64>) -> bool {
        let Some(limit) = limit else { return false };
        let price = match self.model.wrong {
            Some(Wrong::LimitOnHorizon) => self.horizon(),
            Some(Wrong::LimitOnEveryPrice) => self.prices.iter().copied().max().unwrap_or(0),
            _ => self.prices[self.table.origin as usize],
        };
        price > limit || price == limit && self.model.has(Wrong::LimitItselfPassed)
    }

    /// The largest distance reached.
    pub fn horizon(&self) -> u64 {
        let reached = (0..self.reached.len()).filter(|&node| self.reached[node]);
        reached.filter_map(|node| self.bounds[node]).max().unwrap_or(0)
    }

    pub fn iterations(&self) -> u64 {
        self.contractions + self.extensions + self.deletions
    }

    fn at_wrong_cap(&self) -> bool {
        self.model.has(Wrong::IterationCap) && self.iterations() >= WRONG_CAP
    }

    fn head(&self, arc: usize) -> usize {
        self.table.heads[arc] as usize
    }

    fn length(&self, arc: usize) -> u64 {
        self.table.lengths[arc] as u64
    }

    fn reach(&mut self, node: usize) {
        self.reached[node] = true;
        for arc in self.outgoing[node].clone() {
            if !self.reached[self.head(arc)] {
                self.offer(arc, self.bounds[node].unwrap() + self.length(arc));
            }
        }
        self.stopped = self.table.wanted.iter().all(|&wanted| self.reached[wanted as usize]);
    }

    /// Keeps the arc into its unreached head if it is better than the one kept so far.
    fn offer(&mut self, arc: usize, bound: u64) {
        let head = self.head(arc);
        let earlier = |kept: usize| match self.model.wrong {
            Some(Wrong::TieByFirstMet) => false,
            Some(Wrong::TieByLatest) => arc > kept,
            _ => arc < kept,
        };
        let better = match (self.bounds[head], self.kept[head]) {
            (Some(former), Some(kept)) if bound == former => earlier(kept),
            (Some(former), _) => bound < former,
            (None, _) => true,
        };
        if better {
            self.kept[head] = Some(arc);
            self.bounds[head] = Some(bound);
        }
    }

    /// The kept arcs from a node to its children, in table order.
    fn arcs_to_children(&self, node: usize) -> impl Iterator<Item = usize> + '_ {
        let arcs = self.outgoing[node].iter().copied();
        arcs.filter(|&arc| self.kept[self.head(arc)] == Some(arc) && !self.deleted[self.head(arc)])
    }

    /// The least of length + child's price, with the lowest arc position that gives it.
    fn best_child(&self, node: usize) -> Option<(u64, usize)> {
        let later = self.model.has(Wrong::LaterArcExtended);
        let mut best: Option<(u64, usize)> = None;
        for arc in self.arcs_to_children(node) {
            let value = self.length(arc) + self.prices[self.head(arc)];
            if best.map_or(true, |(least, _)| value < least || later && value == least) {
                best = Some((value, arc));
            }
        }
        best
    }

    /// One iteration at the terminal node; false where the run stops instead.
    fn iteration(&mut self) -> bool {
        let node = match self.path.last() {
            Some(&node) => node,
            None => return false,
        };
        let at_origin = self.path.len() == 1;
        let best = self.best_child(node);
        if best.is_none() && at_origin {
            self.scans += self.model.has(Wrong::StopScans) as u64;
            return false;
        }
        self.look(node, best.map(|(_, arc)| self.head(arc)));
        match best {
            None => {
                self.deleted[node] = true;
                self.path.pop();
                self.deletions += 1;
            }
            Some((value, _)) if self.prices[node] < value => {
                self.prices[node] = value;
                if !at_origin || self.model.has(Wrong::PathShortenedAtOrigin) {
                    self.path.pop();
                }
                self.contractions += 1;
            }
            Some((value, arc)) => {
                assert_eq!(self.prices[node], value, "a price is never above the least of its children");
                self.extend(self.head(arc));
            }
        }
        true
    }

    /// Scans the children of a node at its first iteration, and where one of them or the price of the remembered child has changed since its
    /// last scan; the best child is then remembered.
    fn look(&mut self, node: usize, best: Option<usize>) {
        let children: Vec<usize> = self.arcs_to_children(node).collect();
        let scans = match &self.last_scans[node] {
            None => !self.model.has(Wrong::FirstScanForgotten),
            Some(last) => self.changed(last, &children),
        };
        if scans {
            self.scans += 1;
        }
        if scans || self.last_scans[node].is_none() {
            self.last_scans[node] = Some(Scan { children, best: best.map(|child| (child, self.prices[child])) });
        }
    }

    fn changed(&self, last: &Scan, children: &[usize]) -> bool {
        let lost = |child: usize| !children.iter().any(|&arc| self.head(arc) == child);
        let other_children = if self.model.has(Wrong::OtherLostChildrenUnseen) {
            last.best.map_or(true, |(child, _)| lost(child))
        } else {
            last.children != children
        };
        let other_price = last.best.map_or(false, |(child, price)| self.prices[child] != price);
        other_children || other_price && !self.model.has(Wrong::ChildsPriceUnseen)
    }

    fn extend(&mut self, child: usize) {
        self.path.push(child);
        self.extensions += 1;
        if !self.reached[child] {
            self.reach(child);
        }
    }
}
