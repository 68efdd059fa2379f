//! Lists that give each id its new one (02, A.12): `order[i]` is the new id of i.

use crate::random::Random;
use crate::tables::{Concept, Tables};

/// Every id keeps its own.
pub fn identity(count: usize) -> Vec<u16> {
    (0..count).map(|id| id as u16).collect()
}

/// The list that leads back.
pub fn inverse(order: &[u16]) -> Vec<u16> {
    let mut ids: Vec<usize> = (0..order.len()).collect();
    ids.sort_by_key(|&id| order[id]);
    ids.iter().map(|&id| id as u16).collect()
}

/// One list after another, as one.
pub fn composed(order: &[u16], next: &[u16]) -> Vec<u16> {
    order.iter().map(|&id| next[usize::from(id)]).collect()
}

fn inner_ids(tables: &Tables, id: usize) -> Vec<usize> {
    match tables.concept(id) {
        Concept::Existential(_, inner) => vec![inner],
        Concept::Conjunction(first, second) => vec![first, second],
        Concept::Top | Concept::Name(_) | Concept::Variable(_) => vec![],
    }
}

/// Whether inner ids stay smaller.
pub fn is_rising(tables: &Tables, order: &[u16]) -> bool {
    let smaller = |id: usize| inner_ids(tables, id).iter().all(|&inner| order[inner] < order[id]);
    (0..tables.concept_count()).all(smaller)
}

/// A random list in which inner ids stay smaller: the new ids are given out one by one, each to an
/// id whose inner ids have theirs.
pub fn rising(random: &mut Random, tables: &Tables) -> Vec<u16> {
    let count = tables.concept_count();
    let first_kind = random.below(5) as u16;
    let style = random.below(4);
    let mut order: Vec<Option<u16>> = vec![None; count];
    for new in 0..count {
        let given = |id: &usize| order[*id].is_some();
        let ready: Vec<usize> = (0..count)
            .filter(|id| !given(id) && inner_ids(tables, *id).iter().all(given))
            .collect();
        let of_kind = ready.iter().copied().find(|&id| tables.row(id)[0] == first_kind);
        let (lowest, highest) = (ready[0], ready[ready.len() - 1]);
        let id = match style {
            // few move
            0 if random.percent(90) => lowest,
            // as far as can be the other way round
            1 => highest,
            2 => of_kind.unwrap_or(highest),
            _ => *random.pick(&ready),
        };
        order[id] = Some(new as u16);
    }
    order.into_iter().map(|new| new.expect("each id got its new one")).collect()
}

/// A random list that leads back by itself, and in which inner ids stay smaller.
pub fn involution(random: &mut Random, tables: &Tables) -> Vec<u16> {
    let count = tables.concept_count();
    let mut order = identity(count);
    for _ in 0..2 * count {
        let (one, other) = (random.below(count), random.below(count));
        if [one, other].iter().all(|&id| usize::from(order[id]) == id) {
            order.swap(one, other);
            if !is_rising(tables, &order) {
                order.swap(one, other);
            }
        }
    }
    order
}
