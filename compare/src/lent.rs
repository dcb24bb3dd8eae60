//! Lent memory in two copies: the library writes into one and the paper into the other, and then all of it has to be
//! the same.

use std::ops::Range;

/// How many things before and behind the lent ones are looked at too.
const AROUND: usize = 16;

/// Two copies of one buffer, filled with a pattern: bytes, or rows of numbers.
pub struct Twins<T> {
    library: Vec<T>,
    paper: Vec<T>,
    pattern: fn(usize) -> T,
}

/// The byte of the pattern at a place.
pub fn byte_pattern(at: usize) -> u8 {
    (at * 167 + 91 + at / 256 * 13) as u8
}

impl<T: Copy + PartialEq> Twins<T> {
    /// Buffers of which up to `most` things can be lent.
    pub fn new(most: usize, pattern: fn(usize) -> T) -> Twins<T> {
        let filled: Vec<T> = (0..most + 2 * AROUND).map(pattern).collect();
        Twins { library: filled.clone(), paper: filled, pattern }
    }

    /// `size` things of the library's copy.
    pub fn library(&mut self, size: usize) -> &mut [T] {
        &mut self.library[AROUND..AROUND + size]
    }

    /// `size` things of the paper's copy.
    pub fn paper(&mut self, size: usize) -> &mut [T] {
        &mut self.paper[AROUND..AROUND + size]
    }

    /// Whether all that was lent is the same in both, and what is around it.
    pub fn are_same(&self, size: usize) -> bool {
        let looked_at = size + 2 * AROUND;
        self.library[..looked_at] == self.paper[..looked_at]
    }

    /// The same, and then the pattern is put back: over what the paper wrote, or over all where the copies differ.
    pub fn settle(&mut self, written: Range<usize>, size: usize) -> bool {
        let same = self.are_same(size);
        let again = if same { AROUND + written.start..AROUND + written.end } else { 0..self.paper.len() };
        for at in again {
            self.library[at] = (self.pattern)(at);
            self.paper[at] = (self.pattern)(at);
        }
        same
    }
}

#[cfg(test)]
mod tests {
    use super::*;

    #[test]
    fn a_byte_that_only_one_wrote_is_seen() {
        let mut twins = Twins::new(8, byte_pattern);
        twins.paper(8)[2..4].fill(1);
        twins.library(8)[2..4].fill(1);
        assert!(twins.settle(2..4, 8));
        twins.library(8)[7] ^= 1;
        assert!(!twins.are_same(0));
        assert!(!twins.settle(0..0, 7));
        assert!(twins.settle(0..0, 8));
    }
}
