//! Own questions. A failed question is made to fail as widely as it does, by testing it alone: the
//! variables that it does not hold count for nothing, so they are set as in the target at once; then
//! runs of pairs are, from the last pair down, and halved where the question would hold. So the
//! early pairs are left to be what the failure is about.

use super::pairs::{ones, Choice, PAIRS};
use super::patterns::Patterns;
use super::questions::Question;

/// Between the choice and the target, as near to the target as the question goes on failing.
pub fn widen(
    patterns: &mut Patterns,
    question: &Question,
    choice: &Choice,
    target: &Choice,
) -> Choice {
    let mut failing = *choice;
    for k in 0..8 {
        if question.variables >> k & 1 == 0 {
            failing[k] = target[k];
        }
    }
    let mut end = PAIRS;
    let mut size = PAIRS;
    while end > 0 {
        let start = end.saturating_sub(size);
        let next = with_run(&failing, target, start, end);
        if next == failing || !patterns.holds(question, &next) {
            failing = next;
            end = start;
            size *= 2;
        } else if end - start == 1 {
            end = start;
            size = 1;
        } else {
            size = (end - start) / 2;
        }
    }
    failing
}

/// The choice with a run of pairs as in the target.
fn with_run(choice: &Choice, target: &Choice, start: usize, end: usize) -> Choice {
    let mut mix = *choice;
    for k in 0..8 {
        let run = ones(end.saturating_sub(64 * k)) & !ones(start.saturating_sub(64 * k));
        mix[k] = choice[k] & !run | target[k] & run;
    }
    mix
}
