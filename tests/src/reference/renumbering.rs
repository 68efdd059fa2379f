//! Concepts under new ids (02, A.12): each row is written to the place of its new id. `order[i]` is
//! the new id of i.

use std::collections::BTreeMap;

use super::refusals::looks_ahead;
use crate::tables::{Concept, Tables};

/// Check 21 of a list for so many ids. Each number is looked up with all its places, of which the
/// later ones repeat it.
pub fn list_fault(order: &[u16], count: usize) -> Option<usize> {
    let mut places: BTreeMap<usize, Vec<usize>> = BTreeMap::new();
    for (place, &number) in order.iter().enumerate() {
        places.entry(usize::from(number)).or_default().push(place);
    }
    let unknown = places.range(count..).flat_map(|(_, all)| all);
    let repeated = places.values().flat_map(|all| &all[1..]);
    let first = unknown.chain(repeated).min().copied();
    // a list of ids, none of them twice, can only lack some
    first.or((order.len() < count).then_some(order.len()))
}

/// The tables under new ids, for accepted tables and a list of all ids. Names, roles and variables
/// are no ids, and role pairs stay.
pub fn renumbered(tables: &Tables, order: &[u16]) -> Tables {
    let mut after = tables.clone();
    for id in 0..tables.concept_count() {
        let row = match tables.concept(id) {
            Concept::Existential(role, inner) => [2, role, order[inner]],
            Concept::Conjunction(first, second) => [3, order[first], order[second]],
            Concept::Top | Concept::Name(_) | Concept::Variable(_) => tables.row(id),
        };
        let at = 3 * usize::from(order[id]);
        after.concepts[at..at + 3].copy_from_slice(&row);
    }
    for id in after.inclusions.iter_mut().chain(&mut after.questions) {
        *id = order[usize::from(*id)];
    }
    after
}

/// Check 22: what check 3 would find in the tables under new ids, and the lowest old id of it.
pub fn rising_fault(after: &Tables, order: &[u16]) -> Option<usize> {
    let old = |new: usize| order.iter().position(|&id| usize::from(id) == new).expect("an id");
    (0..order.len()).filter(|&new| looks_ahead(after, new)).map(old).min()
}
