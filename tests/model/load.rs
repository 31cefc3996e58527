//! "Making a test load": the draws, the arcs and the grounds 1, 3, 16 and 17.

use super::{Model, Wrong};
use crate::rules::*;

/// A ground's number and its test.
type Ground<'a> = (u32, &'a dyn Fn() -> bool);

impl Model {
    pub fn make_load(&self, load: &Load, out: LoadBuffers) -> Made {
        let sizes = [out.tails.len(), out.heads.len(), out.lengths.len()];
        match self.load_for(load, sizes) {
            Ok(arcs) => {
                self.fill(&arcs, out);
                Made { arcs: arcs.len() as u32, ..Made::default() }
            }
            Err(Refusal { number, place }) => {
                if number == 17 && self.has(Wrong::RefusedLoadFills) {
                    self.fill(&self.arcs_of_load(load), out);
                }
                Made { number, place, ..Made::default() }
            }
        }
    }

    /// The grounds in order, for columns of these sizes; the arcs where there is none.
    fn load_for(&self, load: &Load, sizes: [usize; 3]) -> Result<Vec<Arc>, Refusal> {
        let mut grounds: [Ground; 3] = [
            (1, &|| load.n == 0 || load.n as usize > MOST_NODES),
            (3, &|| self.no_room(load, sizes)),
            (16, &|| self.bad_range(load)),
        ];
        match self.wrong {
            Some(Wrong::ColumnsBeforeNodeCount) => grounds.swap(0, 1),
            Some(Wrong::RangeBeforeColumns) => grounds.swap(1, 2),
            _ => {}
        }
        for (number, found) in grounds {
            if number == 16 && self.has(Wrong::SizeBeforeRange) {
                self.bounded_arcs(load)?;
            }
            if found() {
                return refuse(number, 0);
            }
        }
        self.bounded_arcs(load)
    }

    fn no_room(&self, load: &Load, sizes: [usize; 3]) -> bool {
        let by_arcs = self.has(Wrong::RoomForItsArcsEnough);
        let least = if by_arcs { self.arcs_of_load(load).len().min(MOST_ARCS) } else { MOST_ARCS };
        let unequal = sizes != [sizes[0]; 3];
        sizes.iter().any(|&size| size < least) || unequal && self.has(Wrong::UnequalColumnsRefused)
    }

    fn bad_range(&self, load: &Load) -> bool {
        let bad_chance = load.chance > CERTAIN && !self.has(Wrong::GreaterChanceTaken);
        let bad_largest = match self.wrong {
            Some(Wrong::DownAsLargestTaken) => load.largest == 0,
            Some(Wrong::LongestAsLargestRefused) => load.largest == 0 || load.largest >= LONGEST_ARC,
            _ => load.largest == 0 || load.largest == DOWN,
        };
        bad_chance || bad_largest
    }

    /// The arcs, or the ground 17.
    fn bounded_arcs(&self, load: &Load) -> Result<Vec<Arc>, Refusal> {
        let most = match self.wrong {
            Some(Wrong::OneArcMoreTaken) => MOST_ARCS + 1,
            Some(Wrong::FullLoadRefused) => MOST_ARCS - 1,
            _ => MOST_ARCS,
        };
        let arcs = self.arcs_of_load(load);
        if arcs.len() > most {
            return refuse(17, if self.has(Wrong::LoadPlaceIsArc) { most } else { 0 });
        }
        Ok(arcs)
    }

    fn fill(&self, arcs: &[Arc], out: LoadBuffers) {
        self.fill_column(out.tails, arcs.iter().map(|arc| arc.0));
        self.fill_column(out.heads, arcs.iter().map(|arc| arc.1));
        self.fill_column(out.lengths, arcs.iter().map(|arc| arc.2));
    }

    /// Fills the start of a column, as far as it goes.
    fn fill_column<T: Default>(&self, column: &mut [T], elements: impl Iterator<Item = T>) {
        let mut places = column.iter_mut();
        for element in elements {
            let Some(place) = places.next() else { return };
            *place = element;
        }
        if self.has(Wrong::LoadCleansRest) {
            places.for_each(|place| *place = T::default());
        }
    }

    /// The arcs of a load, also where they are too many.
    pub fn arcs_of_load(&self, load: &Load) -> Vec<Arc> {
        let mut state = load.seed;
        let mut arcs = Vec::new();
        for first in 0..load.n {
            for second in 0..load.n {
                let (tail, head) = if self.has(Wrong::HeadsBeforeTails) { (second, first) } else { (first, second) };
                if tail == head && !self.has(Wrong::LoopsDrawn) {
                    continue;
                }
                let drawn = self.draw(&mut state);
                if tail != head && self.has_arc(drawn, load.chance) {
                    arcs.push((tail as u16, head as u16, self.drawn_length(drawn, &mut state, load.largest)));
                } else if self.has(Wrong::LengthAlwaysDrawn) {
                    self.draw(&mut state);
                }
            }
        }
        arcs
    }

    /// The new state.
    fn draw(&self, state: &mut u32) -> u32 {
        let former = *state;
        *state = former.wrapping_mul(1_664_525).wrapping_add(1_013_904_223);
        if self.has(Wrong::FormerStateDrawn) { former } else { *state }
    }

    fn has_arc(&self, drawn: u32, chance: u32) -> bool {
        match self.wrong {
            Some(Wrong::ChanceItselfTaken) => drawn / 65_536 <= chance,
            Some(Wrong::LowBitsDecide) => drawn % 65_536 < chance,
            _ => drawn / 65_536 < chance,
        }
    }

    /// The length of an arc, by a second draw.
    fn drawn_length(&self, first: u32, state: &mut u32, largest: u32) -> u32 {
        let former = *state;
        let second = self.draw(state);
        if self.has(Wrong::SecondDrawForgotten) {
            *state = former;
        }
        let drawn = if self.has(Wrong::LengthByFirstDraw) { first } else { second };
        let shortest = if self.has(Wrong::LengthsFromZero) { 0 } else { 1 };
        // The largest length is 0 only where the arcs are counted too early.
        shortest + drawn % largest.max(1)
    }
}
