//! Needs. A nogood whose low side is taken and that of an interval's high side leaves out atoms of one
//! variable only says that every solution in the interval takes one of those. Needs without an atom
//! in common want as many atoms as they are: where these, and what is taken already, are more than
//! the variable's largest count, there is no solution, and none of the needs has to be split.

use super::counts::Counts;
use super::nogoods::Nogoods;
use super::pairs::{Choice, Interval};

impl Counts {
    /// A nogood around the interval where more is wanted than a largest count that it may reach and
    /// has not reached.
    pub fn wanted_too_many(
        &self,
        nogoods: &Nogoods,
        full: &Choice,
        interval: &Interval,
    ) -> Option<Interval> {
        let in_question = |&k: &usize| {
            let most = self.largest[k];
            interval.low[k].count_ones() < most && interval.high[k].count_ones() > most
        };
        (0..8).filter(in_question).find_map(|k| self.wanted_of(k, nogoods, full, interval))
    }

    fn wanted_of(
        &self,
        k: usize,
        nogoods: &Nogoods,
        full: &Choice,
        interval: &Interval,
    ) -> Option<Interval> {
        let (low, high) = (&interval.low, &interval.high);
        let mut about = Interval { low: [0; 8], high: *full };
        about.low[k] = low[k];
        let mut met = low[k];
        let mut sum = low[k].count_ones();
        for place in 0..nogoods.count {
            let need = nogoods.at(place);
            let wanted = high[k] & !need.high[k];
            if wanted == 0 || wanted & met != 0 {
                continue;
            }
            let mut outside = 0;
            for j in 0..8 {
                outside |= need.low[j] & !low[j];
                if j != k {
                    outside |= high[j] & !need.high[j];
                }
            }
            if outside != 0 {
                continue;
            }
            for j in 0..8 {
                about.low[j] |= need.low[j];
                about.high[j] &= need.high[j] | high[j];
            }
            met |= wanted;
            sum += 1;
            if sum > self.largest[k] {
                return Some(about);
            }
        }
        None
    }
}
