//! A buffer lent in the middle of a larger one, so that a write beside it is seen.

/// Elements before and behind the lent part.
const GUARD: usize = 64;

/// Elements that a filling can be made of.
pub trait Element: Copy + PartialEq + std::fmt::Debug {
    fn from_mixed(mixed: u64) -> Self;
}

macro_rules! element {
    ($($kind:ty)*) => { $(impl Element for $kind {
        fn from_mixed(mixed: u64) -> Self { mixed as $kind }
    })* };
}

element!(u8 u16 u32 u64);

pub struct Lent<T> {
    whole: Vec<T>,
    length: usize,
}

/// The filling before a call, different from place to place.
fn filling<T: Element>(place: usize) -> T {
    T::from_mixed((place as u64 + 1).wrapping_mul(0x9E37_79B9_7F4A_7C15) >> 7)
}

impl<T: Element> Lent<T> {
    pub fn new(length: usize) -> Lent<T> {
        Lent { whole: (0..length + 2 * GUARD).map(filling).collect(), length }
    }

    /// Lends a list that has its elements already, to be read.
    pub fn of(list: &[T]) -> Lent<T> {
        let mut lent = Lent::new(list.len());
        lent.part().copy_from_slice(list);
        lent
    }

    pub fn part(&mut self) -> &mut [T] {
        &mut self.whole[GUARD..GUARD + self.length]
    }

    pub fn held(&self) -> &[T] {
        &self.whole[GUARD..GUARD + self.length]
    }

    /// Everything from the given element of the lent part on, and the guard before it, is as it was.
    fn untouched_but_for(&self, start: usize) -> bool {
        let same = |place: usize| self.whole[place] == filling(place);
        (0..GUARD).all(same) && (GUARD + start..self.whole.len()).all(same)
    }

    pub fn guards_hold(&self) -> bool {
        self.untouched_but_for(self.length)
    }

    /// Only the first elements of the lent part may differ.
    pub fn rest_untouched(&self, start: usize) -> bool {
        self.untouched_but_for(start.min(self.length))
    }
}
