//! The first solution: the pairs are walked in their order, and one is left out whenever some
//! solution remains without it. The last solution found is kept, so that a pair it leaves out costs
//! nothing.

use super::nogoods::Nogoods;
use super::pairs::{bit, Choice, PAIRS};
use super::solve::{Answer, Search};

impl Search<'_> {
    /// `known` is any solution.
    pub fn first_solution(&mut self, known: Choice) -> Choice {
        let mut interval = self.everything();
        let mut witness = known;
        for pair in 0..PAIRS {
            if self.full[pair / 64] & bit(pair) == 0 {
                continue;
            }
            let without = interval.leave(pair);
            if witness[pair / 64] & bit(pair) == 0 {
                interval = without;
                continue;
            }
            match self.some_solution(without, Nogoods::MOST) {
                Answer::Found(found) => {
                    interval = without;
                    witness = found;
                }
                Answer::Nogood(_) => interval = interval.take(pair),
            }
        }
        witness
    }
}
