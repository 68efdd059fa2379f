//! Late closing, and under few conjunctions. The value above a pattern is read at two places: at
//! the left side of a question, where the right side is looked up, and directly under an
//! existential, where inner ids of existentials are. Only there it is closed under conjunctions: a
//! conjunction of patterns joins its members' values as they are, and is closed as a whole. And only
//! those conjunctions count there that lead to what is looked up: a conjunction brings what it is
//! below and neither member is; if nothing of that is wanted, it is left out.

use super::patterns::Patterns;
use super::questions::Questions;
use crate::columns::{each, insert, Set, EMPTY};

const MOST: usize = 192;

pub fn prepare(patterns: &mut Patterns, questions: &Questions) {
    let wanted = wanted_at(patterns, questions);
    let brought = brought(patterns);
    for id in 0..MOST {
        if wanted[id] != EMPTY {
            patterns.closing[id] = leading_to(patterns, &brought, wanted[id]);
        }
    }
}

/// What is looked up in the value of each pattern.
fn wanted_at(patterns: &Patterns, questions: &Questions) -> [Set; MOST] {
    let mut wanted = [EMPTY; MOST];
    for question in questions.list() {
        if question.on_right {
            continue;
        }
        insert(&mut wanted[question.left], question.right);
        each(question.cone, |id| {
            if patterns.kind[id] == 2 {
                let inner = &mut wanted[usize::from(patterns.second[id])];
                each(patterns.wide[id], |e| insert(inner, usize::from(patterns.second[e])));
            }
        });
    }
    wanted
}

/// What each conjunction is below, and neither of its members.
fn brought(patterns: &Patterns) -> [Set; MOST] {
    let mut brought = [EMPTY; MOST];
    each(patterns.conjunctions, |id| {
        let first = &patterns.above[usize::from(patterns.first[id])];
        let second = &patterns.above[usize::from(patterns.second[id])];
        for k in 0..3 {
            brought[id][k] = patterns.above[id][k] & !first[k] & !second[k];
        }
    });
    brought
}

/// The conjunctions that bring something wanted; their members are then wanted too. Members are
/// lower ids, so one falling pass finds most.
fn leading_to(patterns: &Patterns, brought: &[Set; MOST], mut wanted: Set) -> Set {
    let mut kept = EMPTY;
    loop {
        let before = kept;
        for word in (0..3).rev() {
            let mut rest = patterns.conjunctions[word] & !kept[word];
            while rest != 0 {
                let id = 64 * word + 63 - rest.leading_zeros() as usize;
                rest ^= 1 << (id % 64);
                let new = &brought[id];
                if new[0] & wanted[0] | new[1] & wanted[1] | new[2] & wanted[2] != 0 {
                    insert(&mut kept, id);
                    insert(&mut wanted, usize::from(patterns.first[id]));
                    insert(&mut wanted, usize::from(patterns.second[id]));
                }
            }
        }
        if kept == before {
            return kept;
        }
    }
}
