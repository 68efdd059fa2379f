//! Nogoods: intervals that hold no solution, kept for the whole search. Beside them, sliced: for
//! each pair the nogoods that want it taken, and those that want it left out, a bit a nogood.

use super::pairs::{Choice, Interval, PAIRS};

pub const WORDS: usize = Nogoods::MOST / 64;

/// A bit a nogood.
pub type Slice = [u64; WORDS];

pub struct Nogoods {
    pub count: usize,
    kept: [Interval; Nogoods::MOST],
    /// Every pair that a solution may take.
    full: Choice,
    pub wants_taken: [Slice; PAIRS],
    pub wants_left: [Slice; PAIRS],
    /// The pairs for which there are any.
    pub taken: Choice,
    pub left: Choice,
}

const NOTHING: Interval = Interval { low: [0; 8], high: [0; 8] };

impl Nogoods {
    /// Those that tests cost are kept while there is room, those that come by merging only while
    /// there is much.
    pub const MOST: usize = 1024;
    pub const MOST_MERGED: usize = 640;

    pub fn new(full: Choice) -> Nogoods {
        Nogoods {
            count: 0,
            kept: [NOTHING; Nogoods::MOST],
            full,
            wants_taken: [[0; WORDS]; PAIRS],
            wants_left: [[0; WORDS]; PAIRS],
            taken: [0; 8],
            left: [0; 8],
        }
    }

    pub fn at(&self, place: usize) -> &Interval {
        &self.kept[place]
    }

    /// Keeps one more, while there are fewer than `most`.
    pub fn add(&mut self, most: usize, nogood: &Interval) {
        if self.count >= most {
            return;
        }
        self.kept[self.count] = *nogood;
        for k in 0..8 {
            let outside = self.full[k] & !nogood.high[k];
            self.taken[k] |= nogood.low[k];
            self.left[k] |= outside;
            mark(&mut self.wants_taken, k, nogood.low[k], self.count);
            mark(&mut self.wants_left, k, outside, self.count);
        }
        self.count += 1;
    }
}

fn mark(slices: &mut [Slice; PAIRS], k: usize, pairs: u64, place: usize) {
    let mut rest = pairs;
    while rest != 0 {
        slices[64 * k + rest.trailing_zeros() as usize][place / 64] |= 1 << (place % 64);
        rest &= rest - 1;
    }
}
