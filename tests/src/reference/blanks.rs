//! The set of blanks in an entry, by asking for each blank whether one of its entries can be reached.

use crate::tables::{Concept, Tables};

/// The entries that are reached from one by way of inner ids, itself among them.
fn reached(tables: &Tables, from: usize) -> Vec<bool> {
    let mut seen = vec![false; tables.concept_count()];
    let mut open = vec![from];
    while let Some(id) = open.pop() {
        if std::mem::replace(&mut seen[id], true) {
            continue;
        }
        match tables.concept(id) {
            Concept::Existential(_, inner) => open.push(inner),
            Concept::Conjunction(first, second) => open.extend([first, second]),
            Concept::Top | Concept::Name(_) | Concept::Variable(_) => {}
        }
    }
    seen
}

pub fn set(tables: &Tables, id: usize) -> u8 {
    let seen = reached(tables, id);
    let holds = |blank: usize| {
        let is = |id: usize| seen[id] && tables.concept(id) == Concept::Variable(blank);
        (0..tables.concept_count()).any(is)
    };
    (0..8).filter(|&blank| holds(blank)).map(|blank| 1 << blank).sum()
}
