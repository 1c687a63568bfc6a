//! Tables of which nothing is cleared but what is needed, and sets of numbers below 64 as the bits of a number.

use std::mem::MaybeUninit;

/// How many transactions there are, and how many items.
pub const ROWS: usize = 64;

/// The set of each number alone: looking it up takes fewer steps than a shift by a number that only the log knows.
static BITS: [u64; ROWS] = bits();

const fn bits() -> [u64; ROWS] {
    let mut bits = [1; ROWS];
    let mut number = 1;
    while number < ROWS {
        bits[number] = bits[number - 1] << 1;
        number += 1;
    }
    bits
}

/// A table. An entry holds nothing until it is put.
pub struct Rows<T, const LENGTH: usize>([MaybeUninit<T>; LENGTH]);

impl<T: Copy, const LENGTH: usize> Rows<T, LENGTH> {
    #[inline(always)]
    pub fn new() -> Self {
        Rows([MaybeUninit::uninit(); LENGTH])
    }

    /// # Safety
    /// The place is below the length.
    #[inline(always)]
    pub unsafe fn put(&mut self, place: usize, value: T) {
        *self.0.get_unchecked_mut(place) = MaybeUninit::new(value);
    }

    /// # Safety
    /// The entry has been put.
    #[inline(always)]
    pub unsafe fn at(&self, place: usize) -> T {
        self.0.get_unchecked(place).assume_init()
    }
}

impl<const LENGTH: usize> Rows<u64, LENGTH> {
    /// A table whose every set is empty.
    #[inline(always)]
    pub fn cleared() -> Self {
        Rows([MaybeUninit::new(0); LENGTH])
    }

    /// Adds a set to an entry.
    ///
    /// # Safety
    /// The entry has been put.
    #[inline(always)]
    pub unsafe fn add(&mut self, place: usize, set: u64) {
        let before = self.at(place);
        self.put(place, before | set);
    }
}

/// The set of a number alone.
///
/// # Safety
/// The number is below 64.
#[inline(always)]
pub unsafe fn bit(number: usize) -> u64 {
    *BITS.get_unchecked(number)
}

/// The lowest number of a set that is not empty.
#[inline(always)]
pub fn lowest(set: u64) -> usize {
    set.trailing_zeros() as usize & (ROWS - 1)
}

/// The highest number of a set that is not empty.
#[inline(always)]
pub fn highest(set: u64) -> usize {
    (set | 1).leading_zeros() as usize ^ (ROWS - 1)
}

/// The numbers of a set, the lowest first.
#[inline(always)]
pub fn numbers(set: u64) -> impl Iterator<Item = usize> {
    let mut rest = set;
    std::iter::from_fn(move || {
        if rest == 0 {
            return None;
        }
        let number = lowest(rest);
        rest &= rest - 1;
        Some(number)
    })
}
