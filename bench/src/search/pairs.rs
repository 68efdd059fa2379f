//! Sets of pairs (variable, position): a word a variable, a bit a position. A pair's number is 64
//! times its variable, and its position.

pub type Choice = [u64; 8];

pub const PAIRS: usize = 512;

/// The assignments that take all of the low side and nothing but the high side.
#[derive(Clone, Copy)]
pub struct Interval {
    pub low: Choice,
    pub high: Choice,
}

/// The lowest bits.
pub fn ones(count: usize) -> u64 {
    if count >= 64 {
        return u64::MAX;
    }
    (1 << count) - 1
}

pub fn bit(pair: usize) -> u64 {
    1 << (pair % 64)
}

impl Interval {
    pub fn take(mut self, pair: usize) -> Interval {
        self.low[pair / 64] |= bit(pair);
        self
    }

    pub fn leave(mut self, pair: usize) -> Interval {
        self.high[pair / 64] &= !bit(pair);
        self
    }

    /// Whether every assignment of this interval is in the other.
    pub fn is_within(&self, other: &Interval) -> bool {
        let mut outside = 0;
        for k in 0..8 {
            outside |= other.low[k] & !self.low[k] | self.high[k] & !other.high[k];
        }
        outside == 0
    }

    /// The highest pair that may go either way here and not in the other, else `PAIRS`: the first
    /// solution leaves early pairs out, so late ones are tried first.
    pub fn highest_open(&self, nogood: &Interval) -> usize {
        let mut k = 8;
        while k > 0 {
            k -= 1;
            let open = nogood.low[k] & !self.low[k] | self.high[k] & !nogood.high[k];
            if open != 0 {
                return 64 * k + 63 - open.leading_zeros() as usize;
            }
        }
        PAIRS
    }
}
