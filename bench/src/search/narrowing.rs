//! Narrowing, once before the search. A question with variables on the right only gets harder with
//! more atoms: where it fails under one atom of one variable, no solution takes that atom. What is
//! left is the most that a solution takes; a question with variables on the left only gets easier
//! with more, so where it fails even then, there is none.

use super::pairs::Choice;
use super::patterns::Patterns;
use super::questions::{Question, Questions};

/// Takes atoms out of the choice; false where there is no solution.
pub fn narrow(patterns: &mut Patterns, questions: &Questions, full: &mut Choice) -> bool {
    for question in questions.list().iter().filter(|question| question.on_right) {
        for k in 0..8 {
            if question.variables >> k & 1 == 1 {
                full[k] = possible(patterns, question, k, full[k]);
            }
        }
    }
    questions.list().iter().all(|question| question.on_right || patterns.holds(question, full))
}

/// The atoms of the variable under each of which, alone, the question holds.
fn possible(patterns: &mut Patterns, question: &Question, k: usize, choice: u64) -> u64 {
    let mut left = choice;
    let mut rest = choice;
    while rest != 0 {
        let atom = rest & rest.wrapping_neg();
        rest ^= atom;
        let mut alone = [0; 8];
        alone[k] = atom;
        if !patterns.holds(question, &alone) {
            left ^= atom;
        }
    }
    left
}
