//! Slices between guards.

use std::fmt;
use std::ops::{Deref, DerefMut};

/// A slice inside a larger allocation, with guards before and behind it. Two are equal if their guards are too.
#[derive(Clone, PartialEq)]
pub struct Lent<T> {
    all: Vec<T>,
    start: usize,
    length: usize,
}

/// The fewest guards on either side.
const GUARDS: usize = 24;

fn guard<T: From<u8>>(place: usize) -> T {
    T::from(0xA5 ^ place as u8)
}

impl<T: Copy + PartialEq + From<u8>> Lent<T> {
    fn intact(&self) -> bool {
        let guards = |slice: &[T]| slice.iter().enumerate().all(|(place, &found)| found == guard(place));
        guards(&self.all[..self.start]) && guards(&self.all[self.start + self.length..])
    }
}

impl<T: Copy + From<u8>> From<Vec<T>> for Lent<T> {
    fn from(content: Vec<T>) -> Lent<T> {
        // By its length a slice starts at one or another place of a word.
        let start = GUARDS + content.len() % 8;
        let mut all: Vec<T> = Vec::with_capacity(start + content.len() + GUARDS);
        all.extend((0..start).map(guard::<T>));
        all.extend_from_slice(&content);
        all.extend((0..GUARDS).map(guard::<T>));
        Lent { all, start, length: content.len() }
    }
}

impl<T> Deref for Lent<T> {
    type Target = [T];

    fn deref(&self) -> &[T] {
        &self.all[self.start..][..self.length]
    }
}

impl<T> DerefMut for Lent<T> {
    fn deref_mut(&mut self) -> &mut [T] {
        &mut self.all[self.start..][..self.length]
    }
}

impl<T: Copy + PartialEq + From<u8> + fmt::Debug> fmt::Debug for Lent<T> {
    fn fmt(&self, f: &mut fmt::Formatter<'_>) -> fmt::Result {
        write!(f, "{}{:?}", if self.intact() { "" } else { "GUARDS BROKEN " }, &self[..])
    }
}

#[cfg(test)]
mod tests {
    use super::*;

    #[test]
    fn a_write_beside_a_slice_is_seen() {
        for place in [0, GUARDS + 2, GUARDS + 6, 2 * GUARDS + 5] {
            let mut lent = Lent::from(vec![1u8, 2, 3]);
            assert_eq!((lent.start, lent.all.len()), (GUARDS + 3, 2 * GUARDS + 6));
            lent.fill(9);
            let unbroken = lent.clone();
            assert!(lent.intact() && lent == Lent::from(vec![9, 9, 9]));
            lent.all[place] ^= 1;
            assert!(!lent.intact() && lent != unbroken && lent[..] == unbroken[..]);
        }
    }
}
