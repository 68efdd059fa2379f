//! Largest counts. Clamping: where the low side of an interval takes as many atoms of a variable as it
//! may, the others are left out at once. A nogood that leaves out some of these is about what the low
//! side takes of that variable instead: so counts bring no nogoods of their own.

use super::pairs::{Choice, Interval};

pub struct Counts {
    pub largest: [u32; 8],
}

impl Counts {
    /// Nothing where each variable may take all that a solution takes at most.
    pub fn new(largest: &[u16], full: &Choice) -> Option<Counts> {
        let mut most = [64; 8];
        for (most, &given) in most.iter_mut().zip(largest) {
            *most = u32::from(given);
        }
        let bounded = (0..8).any(|k| full[k].count_ones() > most[k]);
        bounded.then_some(Counts { largest: most })
    }

    /// Without the atoms that would be too many.
    pub fn clamp(&self, interval: &Interval) -> Interval {
        let mut inner = *interval;
        for k in 0..8 {
            if interval.low[k].count_ones() >= self.largest[k] {
                inner.high[k] = interval.low[k];
            }
        }
        inner
    }
}

/// The nogood of a clamped interval as one of the interval as it was.
pub fn unclamp(full: &Choice, interval: &Interval, inner: &Interval, nogood: Interval) -> Interval {
    let mut whole = nogood;
    for k in 0..8 {
        let taken_away = interval.high[k] & !inner.high[k];
        if taken_away & !nogood.high[k] != 0 {
            whole.low[k] = interval.low[k];
            whole.high[k] = full[k];
        }
    }
    whole
}
