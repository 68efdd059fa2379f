//! Sliced look-up: what all nogoods say of an interval, found by word operations over the slices of
//! its pairs. A nogood is dead where a pair that it wants is decided against it; else it is open
//! at the undecided pairs that it wants. With none open it shuts the interval; with one, that pair
//! is decided; with its low side met it holds the interval's low side, so that need not be tested.

use super::nogoods::{Nogoods, Slice};
use super::pairs::{ones, Interval};

/// The place of a nogood.
pub enum Hint {
    Shuts(usize),
    OneOpen(usize),
    /// Holds the low side. The first such is as good a choice as the one with the fewest open.
    HoldsLow(usize),
    Nothing,
}

struct Seen<const N: usize> {
    dead: [u64; N],
    /// Open at a pair wanted taken, or wanted left out, and at two pairs of one of these.
    to_take: [u64; N],
    to_leave: [u64; N],
    two: [u64; N],
}

/// Nogoods are looked at 64 at a time, and no more of them than there are.
pub fn look_up(nogoods: &Nogoods, interval: &Interval) -> Hint {
    match (nogoods.count + 63) / 64 {
        0 => Hint::Nothing,
        1 => see::<1>(nogoods, interval).hint(nogoods.count),
        2 => see::<2>(nogoods, interval).hint(nogoods.count),
        3 | 4 => see::<4>(nogoods, interval).hint(nogoods.count),
        5..=8 => see::<8>(nogoods, interval).hint(nogoods.count),
        _ => see::<16>(nogoods, interval).hint(nogoods.count),
    }
}

fn see<const N: usize>(nogoods: &Nogoods, interval: &Interval) -> Seen<N> {
    let (low, high) = (&interval.low, &interval.high);
    let mut seen = Seen { dead: [0; N], to_take: [0; N], to_leave: [0; N], two: [0; N] };
    for k in 0..8 {
        let open = high[k] & !low[k];
        join(&mut seen.dead, &nogoods.wants_taken, k, nogoods.taken[k] & !high[k]);
        join(&mut seen.dead, &nogoods.wants_left, k, nogoods.left[k] & low[k]);
        let (taken, left) = (nogoods.taken[k] & open, nogoods.left[k] & open);
        count(&mut seen.to_take, &mut seen.two, &nogoods.wants_taken, k, taken);
        count(&mut seen.to_leave, &mut seen.two, &nogoods.wants_left, k, left);
    }
    seen
}

fn join<const N: usize>(set: &mut [u64; N], slices: &[Slice], k: usize, pairs: u64) {
    let mut rest = pairs;
    while rest != 0 {
        let slice = &slices[64 * k + rest.trailing_zeros() as usize];
        rest &= rest - 1;
        for n in 0..N {
            set[n] |= slice[n];
        }
    }
}

fn count<const N: usize>(
    one: &mut [u64; N],
    two: &mut [u64; N],
    slices: &[Slice],
    k: usize,
    pairs: u64,
) {
    let mut rest = pairs;
    while rest != 0 {
        let slice = &slices[64 * k + rest.trailing_zeros() as usize];
        rest &= rest - 1;
        for n in 0..N {
            two[n] |= one[n] & slice[n];
            one[n] |= slice[n];
        }
    }
}

impl<const N: usize> Seen<N> {
    fn hint(&self, count: usize) -> Hint {
        let mut one_open = Hint::Nothing;
        let mut holds_low = Hint::Nothing;
        for n in 0..N {
            let live = ones(count.saturating_sub(64 * n)) & !self.dead[n];
            let (take, leave) = (self.to_take[n], self.to_leave[n]);
            let first = |set: u64| 64 * n + set.trailing_zeros() as usize;
            let shuts = live & !take & !leave;
            if shuts != 0 {
                return Hint::Shuts(first(shuts));
            }
            let one = live & !self.two[n] & !(take & leave);
            if one != 0 && matches!(one_open, Hint::Nothing) {
                one_open = Hint::OneOpen(first(one));
            }
            if live & !take != 0 && matches!(holds_low, Hint::Nothing) {
                holds_low = Hint::HoldsLow(first(live & !take));
            }
        }
        match one_open {
            Hint::Nothing => holds_low,
            hint => hint,
        }
    }
}
