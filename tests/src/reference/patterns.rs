//! What a question says under an assignment, asked again and again: subsumption between concepts
//! without variables does not depend on the assignment and is found once; patterns are then read
//! by their structure, inner ids first.
//!
//! Above a pattern stand the ground concepts reached from its parts through inclusions,
//! conjunctions and existentials. Below a pattern stand the ground concepts that are below each
//! chosen atom, and those with a ground existential as witness of an existential, whose role counts
//! as the pattern's.

use super::atoms;
use crate::tables::{Concept, Tables};

/// A set of ids.
pub type Ids = [u64; 3];

const EVERY_ID: Ids = [u64::MAX; 3];

fn has(ids: &Ids, id: usize) -> bool {
    ids[id / 64] >> (id % 64) & 1 == 1
}

fn insert(ids: &mut Ids, id: usize) {
    ids[id / 64] |= 1 << (id % 64);
}

fn join(ids: &mut Ids, more: &Ids) {
    ids.iter_mut().zip(more).for_each(|(word, other)| *word |= other);
}

fn meet(ids: &mut Ids, others: &Ids) {
    ids.iter_mut().zip(others).for_each(|(word, other)| *word &= other);
}

pub struct Patterns {
    concepts: Vec<Concept>,
    atoms: Vec<usize>,
    pattern: Vec<bool>,
    questions: Vec<(usize, usize)>,
    /// The patterns that stand in each question, inner ids first.
    parts: Vec<Vec<usize>>,
    /// Row i: the ground ids that the ground id i is subsumed by, and those subsumed by it.
    above: Vec<Ids>,
    below: Vec<Ids>,
    /// What everything is subsumed by.
    above_top: Ids,
    /// Ground conjunctions and inclusions: who is below the first two is below the third.
    steps: Vec<(usize, usize, usize)>,
    /// Role, inner id and id of the ground existentials.
    existentials: Vec<(u16, usize, usize)>,
    /// For each role those that it counts as, as bits; empty where each counts as itself only.
    wider: Vec<u128>,
}

impl Patterns {
    /// The tables must be accepted; the variables choose from `ids`, ground names and existentials,
    /// mostly the atoms; `wider` has for each role the roles that it counts as, as bits, or is empty;
    /// `holds(i, j)` says that the ground i is subsumed by the ground j.
    pub fn new(
        tables: &Tables,
        ids: &[usize],
        wider: Vec<u128>,
        holds: impl Fn(usize, usize) -> bool,
    ) -> Patterns {
        let count = tables.concept_count();
        let pattern = atoms::patterns(tables);
        let mut made = Patterns {
            concepts: (0..count).map(|id| tables.concept(id)).collect(),
            atoms: ids.to_vec(),
            questions: tables.question_pairs(),
            parts: Vec::new(),
            above: vec![[0; 3]; count],
            below: vec![[0; 3]; count],
            above_top: [0; 3],
            steps: tables.inclusion_pairs().iter().map(|&(l, r)| (l, l, r)).collect(),
            existentials: Vec::new(),
            wider,
            pattern,
        };
        made.parts = made.questions.iter().map(|&pair| made.parts_of(pair)).collect();
        made.fill_in(holds);
        made
    }

    fn fill_in(&mut self, holds: impl Fn(usize, usize) -> bool) {
        let count = self.concepts.len();
        let ground: Vec<usize> = (0..count).filter(|&id| !self.pattern[id]).collect();
        for &i in &ground {
            for &j in ground.iter().filter(|&&j| holds(i, j)) {
                insert(&mut self.above[i], j);
                insert(&mut self.below[j], i);
            }
        }
        for &id in &ground {
            match self.concepts[id] {
                Concept::Conjunction(first, second) => self.steps.push((first, second, id)),
                Concept::Existential(role, inner) => self.existentials.push((role, inner, id)),
                Concept::Top => self.above_top = self.above[id],
                Concept::Name(_) | Concept::Variable(_) => {}
            }
        }
    }

    fn parts_of(&self, (left, right): (usize, usize)) -> Vec<usize> {
        let mut reached = vec![false; self.concepts.len()];
        reached[left] = true;
        reached[right] = true;
        for id in (0..reached.len()).rev() {
            match self.concepts[id] {
                Concept::Existential(_, inner) if reached[id] => reached[inner] = true,
                Concept::Conjunction(first, second) if reached[id] => {
                    reached[first] = true;
                    reached[second] = true;
                }
                _ => {}
            }
        }
        (0..reached.len()).filter(|&id| reached[id] && self.pattern[id]).collect()
    }

    pub fn atom_count(&self) -> usize {
        self.atoms.len()
    }

    pub fn question_count(&self) -> usize {
        self.questions.len()
    }

    /// The variables that stand in the question, rising.
    pub fn variables(&self, question: usize) -> Vec<usize> {
        let variable = |&id: &usize| match self.concepts[id] {
            Concept::Variable(variable) => Some(variable),
            _ => None,
        };
        let mut variables: Vec<usize> = self.parts[question].iter().filter_map(variable).collect();
        variables.sort_unstable();
        variables.dedup();
        variables
    }

    /// Whether more atoms can only help the question: its right side holds no variable.
    pub fn is_monotone(&self, question: usize) -> bool {
        !self.pattern[self.questions[question].1]
    }

    pub fn holds(&self, question: usize, assignment: &[u64]) -> bool {
        let (left, right) = self.questions[question];
        let monotone = self.is_monotone(question);
        let mut known = if monotone { self.above.clone() } else { self.below.clone() };
        for &id in &self.parts[question] {
            known[id] = if monotone {
                self.over(id, &known, assignment)
            } else {
                self.under(id, &known, assignment)
            };
        }
        if monotone {
            has(&known[left], right)
        } else {
            has(&known[right], left)
        }
    }

    fn chosen(&self, choice: u64) -> impl Iterator<Item = usize> + '_ {
        (0..self.atoms.len()).filter(move |k| choice >> k & 1 == 1).map(move |k| self.atoms[k])
    }

    fn counts_as(&self, narrow: u16, wide: u16) -> bool {
        let wider = self.wider.get(usize::from(narrow));
        narrow == wide || wider.map_or(false, |wider| wider >> wide & 1 == 1)
    }

    /// The ground ids that the pattern `id` is subsumed by.
    fn over(&self, id: usize, known: &[Ids], assignment: &[u64]) -> Ids {
        let mut over = self.above_top;
        match self.concepts[id] {
            Concept::Variable(variable) => {
                self.chosen(assignment[variable]).for_each(|atom| join(&mut over, &known[atom]));
            }
            Concept::Conjunction(first, second) => {
                join(&mut over, &known[first]);
                join(&mut over, &known[second]);
            }
            Concept::Existential(role, inner) => {
                for &(r, filler, existential) in &self.existentials {
                    if self.counts_as(role, r) && has(&known[inner], filler) {
                        join(&mut over, &known[existential]);
                    }
                }
            }
            Concept::Top | Concept::Name(_) => unreachable!("no pattern"),
        }
        self.close(over)
    }

    fn close(&self, mut over: Ids) -> Ids {
        loop {
            let before = over;
            for &(first, second, result) in &self.steps {
                if has(&over, first) && has(&over, second) {
                    join(&mut over, &self.above[result]);
                }
            }
            if over == before {
                return over;
            }
        }
    }

    /// The ground ids that are subsumed by the pattern `id`.
    fn under(&self, id: usize, known: &[Ids], assignment: &[u64]) -> Ids {
        let mut under = EVERY_ID;
        match self.concepts[id] {
            Concept::Variable(variable) => {
                self.chosen(assignment[variable]).for_each(|atom| meet(&mut under, &known[atom]));
            }
            Concept::Conjunction(first, second) => {
                meet(&mut under, &known[first]);
                meet(&mut under, &known[second]);
            }
            Concept::Existential(role, inner) => {
                under = [0; 3];
                for &(r, filler, existential) in &self.existentials {
                    if self.counts_as(r, role) && has(&known[inner], filler) {
                        join(&mut under, &known[existential]);
                    }
                }
            }
            Concept::Top | Concept::Name(_) => unreachable!("no pattern"),
        }
        under
    }
}
