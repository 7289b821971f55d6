//! A small generator of random numbers: the same numbers for the same seed.

use std::cell::Cell;

/// The generator (splitmix64). Drawing changes it through a shared borrow, so that the arguments of
/// a call that draws can be drawn too.
pub struct Random(Cell<u64>);

impl Random {
    /// The generator of a seed.
    pub fn new(seed: u64) -> Random {
        Random(Cell::new(seed))
    }

    /// The next 64 bits.
    pub fn next(&self) -> u64 {
        let state = self.0.get().wrapping_add(0x9E37_79B9_7F4A_7C15);
        self.0.set(state);
        let mut mixed = state;
        mixed = (mixed ^ (mixed >> 30)).wrapping_mul(0xBF58_476D_1CE4_E5B9);
        mixed = (mixed ^ (mixed >> 27)).wrapping_mul(0x94D0_49BB_1331_11EB);
        mixed ^ (mixed >> 31)
    }

    /// A number from 0 to the last.
    pub fn up_to(&self, last: u8) -> u8 {
        (self.next() % (u64::from(last) + 1)) as u8
    }

    /// A number from the first to the last.
    pub fn between(&self, first: u8, last: u8) -> u8 {
        first + self.up_to(last - first)
    }

    /// A byte.
    pub fn byte(&self) -> u8 {
        self.up_to(255)
    }

    /// A flag, set as often as not.
    pub fn flag(&self) -> bool {
        self.one_in(2)
    }

    /// Whether one in so many times.
    pub fn one_in(&self, times: u8) -> bool {
        self.up_to(times - 1) == 0
    }

    /// An index below a length that is not 0.
    pub fn index(&self, length: usize) -> usize {
        (self.next() % length as u64) as usize
    }

    /// One of the items.
    pub fn pick<T: Copy>(&self, items: &[T]) -> T {
        items[self.index(items.len())]
    }
}
