//! Some solution of an interval, or a nogood around it. Questions with variables on the left stay
//! true when atoms are added, the others when atoms are left out: so a failed test makes a nogood.
//! An interval is split until its low side solves or a nogood around it is known; the nogoods of the
//! two halves give one of the whole, and a half whose nogood does not speak of the pair speaks for
//! the whole at once.
//!
//! Hint: both halves are first compared with the nogood that gave the pair. Where that pair was its
//! last open one, it shuts one half without a look-up. Spare merging: then the merged nogood is not
//! kept, since it says what two kept ones say.

use super::counts::{unclamp, Counts};
use super::look_up::{look_up, Hint};
use super::nogoods::Nogoods;
use super::pairs::{bit, Choice, Interval, PAIRS};
use super::patterns::Patterns;
use super::questions::{Question, Questions};
use super::widening::widen;

pub struct Search<'a> {
    pub patterns: Patterns,
    pub questions: Questions,
    pub nogoods: &'a mut Nogoods,
    pub full: Choice,
    /// Nothing where there is no largest count that a solution could pass.
    pub counts: Option<Counts>,
}

pub enum Answer {
    Found(Choice),
    Nogood(Interval),
}

/// A pair to split at, the place of the nogood that gave it, and whether it was the last open one.
struct Split {
    pair: usize,
    place: usize,
    last: bool,
}

enum Step {
    Done(Answer),
    Split(Split),
}

impl Search<'_> {
    pub fn everything(&self) -> Interval {
        Interval { low: [0; 8], high: self.full }
    }

    /// `handed` is the place of a nogood to look at first, if there is one.
    pub fn some_solution(&mut self, interval: Interval, handed: usize) -> Answer {
        let Split { pair, place, last } = match self.next_step(&interval, handed) {
            Step::Done(answer) => return answer,
            Step::Split(split) => split,
        };
        let (k, bit) = (pair / 64, bit(pair));
        let with = match self.some_solution(interval.take(pair), place) {
            Answer::Nogood(nogood) if nogood.low[k] & bit != 0 => nogood,
            answer => return answer,
        };
        let without = match self.some_solution(interval.leave(pair), place) {
            Answer::Nogood(nogood) if nogood.high[k] & bit == 0 => nogood,
            answer => return answer,
        };
        let both = merge(&with, &without, pair);
        if !last {
            self.nogoods.add(Nogoods::MOST_MERGED, &both);
        }
        Answer::Nogood(both)
    }

    /// Largest counts come first, and then the interval that they leave.
    fn next_step(&mut self, interval: &Interval, handed: usize) -> Step {
        let counts = match &self.counts {
            None => return self.step_inside(interval, handed),
            Some(counts) => counts,
        };
        if let Some(nogood) = counts.wanted_too_many(self.nogoods, &self.full, interval) {
            return Step::Done(Answer::Nogood(nogood));
        }
        let inner = counts.clamp(interval);
        match self.step_inside(&inner, handed) {
            Step::Done(Answer::Nogood(nogood)) => {
                Step::Done(Answer::Nogood(unclamp(&self.full, interval, &inner, nogood)))
            }
            step => step,
        }
    }

    fn step_inside(&mut self, interval: &Interval, handed: usize) -> Step {
        if handed < self.nogoods.count && interval.is_within(self.nogoods.at(handed)) {
            return Step::Done(Answer::Nogood(*self.nogoods.at(handed)));
        }
        let (place, last) = match look_up(self.nogoods, interval) {
            Hint::Shuts(place) => return Step::Done(Answer::Nogood(*self.nogoods.at(place))),
            Hint::OneOpen(place) => (place, true),
            Hint::HoldsLow(place) => (place, false),
            Hint::Nothing => return self.step_by_test(interval),
        };
        let pair = interval.highest_open(self.nogoods.at(place));
        Step::Split(Split { pair, place, last })
    }

    /// By testing the low side: a solution, or a nogood around it, which is kept.
    fn step_by_test(&mut self, interval: &Interval) -> Step {
        let question = match self.failing(&interval.low) {
            None => return Step::Done(Answer::Found(interval.low)),
            Some(question) => question,
        };
        let mut nogood = self.everything();
        if question.on_right {
            nogood.low = widen(&mut self.patterns, &question, &interval.low, &[0; 8]);
        } else {
            nogood.high = widen(&mut self.patterns, &question, &interval.low, &self.full);
        }
        let place = self.nogoods.count;
        self.nogoods.add(Nogoods::MOST, &nogood);
        match interval.highest_open(&nogood) {
            PAIRS => Step::Done(Answer::Nogood(nogood)),
            pair => Step::Split(Split { pair, place, last: false }),
        }
    }

    /// A question that fails, those with variables on the right first.
    fn failing(&mut self, choice: &Choice) -> Option<Question> {
        for on_right in [true, false] {
            for question in self.questions.list() {
                if question.on_right == on_right && !self.patterns.holds(question, choice) {
                    return Some(*question);
                }
            }
        }
        None
    }
}

/// Of the nogoods with a pair and without it, one that holds both ways.
fn merge(with: &Interval, without: &Interval, pair: usize) -> Interval {
    let mut both = *with;
    both.low[pair / 64] ^= bit(pair);
    for k in 0..8 {
        both.low[k] |= without.low[k];
        both.high[k] &= without.high[k];
    }
    both.high[pair / 64] |= with.high[pair / 64] & bit(pair);
    both
}
