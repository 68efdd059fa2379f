//! The questions with variables, each with its cone: the ids in it that hold a variable, so that a
//! test looks at nothing else. Those with fewer variables come first: what they rule out is ruled
//! out for less.

use super::patterns::Patterns;
use crate::checks::Input;
use crate::columns::{has, insert, Set, EMPTY};

const MOST: usize = 32;

#[derive(Clone, Copy)]
pub struct Question {
    pub left: usize,
    pub right: usize,
    /// The variables are on the right: more atoms make it harder, on the left easier.
    pub on_right: bool,
    pub variables: u8,
    pub cone: Set,
}

pub struct Questions {
    count: usize,
    questions: [Question; MOST],
}

const NONE: Question = Question { left: 0, right: 0, on_right: false, variables: 0, cone: EMPTY };

impl Questions {
    /// Nothing where a question without variables fails.
    pub fn new(input: &Input, patterns: &Patterns) -> Option<Questions> {
        let mut made = Questions { count: 0, questions: [NONE; MOST] };
        for pair in input.questions.chunks_exact(2) {
            let (left, right) = (usize::from(pair[0]), usize::from(pair[1]));
            let on_right = patterns.variables[right] != 0;
            let pattern = if on_right { right } else { left };
            let variables = patterns.variables[pattern];
            if variables != 0 {
                let cone = cone(patterns, pattern);
                made.questions[made.count] = Question { left, right, on_right, variables, cone };
                made.count += 1;
            } else if !has(&patterns.above[left], right) {
                return None;
            }
        }
        made.questions[..made.count].sort_by_key(|question| question.variables.count_ones());
        Some(made)
    }

    pub fn list(&self) -> &[Question] {
        &self.questions[..self.count]
    }
}

/// The ids in a pattern that hold a variable. Inner ids are lower, so one falling pass reaches all.
fn cone(patterns: &Patterns, pattern: usize) -> Set {
    let mut cone = EMPTY;
    insert(&mut cone, pattern);
    for id in (0..=pattern).rev() {
        if !has(&cone, id) {
            continue;
        }
        let (first, second) = (usize::from(patterns.first[id]), usize::from(patterns.second[id]));
        if patterns.kind[id] == 3 && patterns.variables[first] != 0 {
            insert(&mut cone, first);
        }
        if patterns.kind[id] != 4 && patterns.variables[second] != 0 {
            insert(&mut cone, second);
        }
    }
    cone
}
