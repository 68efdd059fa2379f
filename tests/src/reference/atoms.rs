//! Patterns, atoms (01: parts) and what an assignment (01: filling) chooses. Twin ids, whose
//! concepts are built alike, count as one atom: the lowest of them.

use std::collections::BTreeSet;

use crate::tables::{Concept, Tables};

/// For each id, whether it holds a variable at any depth. Inner ids must be smaller.
pub fn patterns(tables: &Tables) -> Vec<bool> {
    let mut pattern: Vec<bool> = Vec::new();
    for id in 0..tables.concept_count() {
        pattern.push(match tables.concept(id) {
            Concept::Top | Concept::Name(_) => false,
            Concept::Existential(_, inner) => pattern[inner],
            Concept::Conjunction(first, second) => pattern[first] || pattern[second],
            Concept::Variable(_) => true,
        });
    }
    pattern
}

/// The ids that stand in the concept `id` at any depth, itself included, each visited once.
fn gather(tables: &Tables, id: usize, seen: &mut BTreeSet<usize>) {
    if !seen.insert(id) {
        return;
    }
    match tables.concept(id) {
        Concept::Existential(_, inner) => gather(tables, inner, seen),
        Concept::Conjunction(first, second) => {
            gather(tables, first, seen);
            gather(tables, second, seen);
        }
        Concept::Top | Concept::Name(_) | Concept::Variable(_) => {}
    }
}

fn is_atom(tables: &Tables, id: usize) -> bool {
    matches!(tables.concept(id), Concept::Name(_) | Concept::Existential(_, _))
}

/// Every name and existential of the inclusions, and of the right sides of questions that hold no
/// variable, rising, however many. This was the list of atoms before twins counted once (02, A.2);
/// it is kept to hold what A.2 promises of the two lists.
pub fn list_with_copies(tables: &Tables) -> Vec<usize> {
    let pattern = patterns(tables);
    let mut seen = BTreeSet::new();
    for (left, right) in tables.inclusion_pairs() {
        gather(tables, left, &mut seen);
        gather(tables, right, &mut seen);
    }
    for (_, right) in tables.question_pairs() {
        if !pattern[right] {
            gather(tables, right, &mut seen);
        }
    }
    seen.retain(|&id| is_atom(tables, id));
    seen.into_iter().collect()
}

/// The atoms' ids, rising, however many: of each id with copies its lowest twin among all ids,
/// even one that stands in no inclusion and no right side.
pub fn list(tables: &Tables) -> Vec<usize> {
    let mut twins = Twins::new(tables);
    let ids = list_with_copies(tables);
    let lowest: BTreeSet<usize> = ids.into_iter().map(|id| twins.lowest(id)).collect();
    lowest.into_iter().collect()
}

/// Which ids are built alike, by walking two concepts side by side.
pub struct Twins<'a> {
    tables: &'a Tables,
    /// Row i, column j, once asked. Without it a tower of "and" takes twice the steps each storey.
    known: Vec<Option<bool>>,
}

impl<'a> Twins<'a> {
    /// Inner ids must be smaller.
    pub fn new(tables: &'a Tables) -> Self {
        Twins { tables, known: vec![None; tables.concept_count().pow(2)] }
    }

    /// Same kind, same name, role or variable, inner ids alike in the same order.
    pub fn alike(&mut self, one: usize, other: usize) -> bool {
        let at = one * self.tables.concept_count() + other;
        if let Some(known) = self.known[at] {
            return known;
        }
        let alike = match (self.tables.concept(one), self.tables.concept(other)) {
            (Concept::Top, Concept::Top) => true,
            (Concept::Name(a), Concept::Name(b)) => a == b,
            (Concept::Existential(r, a), Concept::Existential(s, b)) => r == s && self.alike(a, b),
            (Concept::Conjunction(a, b), Concept::Conjunction(c, d)) => {
                self.alike(a, c) && self.alike(b, d)
            }
            (Concept::Variable(a), Concept::Variable(b)) => a == b,
            _ => false,
        };
        self.known[at] = Some(alike);
        alike
    }

    /// The lowest twin; an id is a twin of itself.
    pub fn lowest(&mut self, id: usize) -> usize {
        (0..id).find(|&lower| self.alike(lower, id)).unwrap_or(id)
    }
}

/// The ids chosen for each variable: bit k stands for the atom at position k.
pub fn chosen(tables: &Tables, assignment: &[u64]) -> Vec<Vec<usize>> {
    chosen_from(&list(tables), assignment)
}

/// The same where the positions are those of another list of ids.
pub fn chosen_from(ids: &[usize], assignment: &[u64]) -> Vec<Vec<usize>> {
    let of_choice = |choice: u64| {
        let positions = (0..ids.len()).filter(move |&position| choice >> position & 1 == 1);
        positions.map(|position| ids[position]).collect()
    };
    assignment.iter().map(|&choice| of_choice(choice)).collect()
}
