//! Substitutions (01: replacements): any concept without variables for each variable.

use crate::random::Random;
use crate::reference;
use crate::tables::Tables;

/// Rows of a concept table without variables; the last row is the concept meant.
pub type Rows = Vec<[u16; 3]>;

/// A concept of up to `most` rows over the given names and roles, past the tables' ranges too.
pub fn random_concept(random: &mut Random, most: usize, names: &[u16], roles: &[u16]) -> Rows {
    let mut rows: Rows = Vec::new();
    for id in 0..random.between(1, most) {
        let inner = |random: &mut Random| (id - 1 - random.below(id.min(3))) as u16;
        let row = match random.below(10) {
            0 => [0, 0, 0],
            1..=3 if id > 0 => [2, *random.pick(roles), inner(random)],
            4..=6 if id > 0 => [3, inner(random), inner(random)],
            _ => [1, *random.pick(names), 0],
        };
        rows.push(row);
    }
    rows
}

/// The tables with every variable replaced: the concepts come first, all ids move up behind
/// them, and a variable becomes "its concept and its concept".
pub fn replace(tables: &Tables, substitution: &[Rows]) -> Tables {
    let mut rows: Rows = Vec::new();
    let mut roots = Vec::new();
    for concept in substitution {
        let offset = rows.len() as u16;
        rows.extend(concept.iter().map(|&row| moved(row, offset)));
        roots.push(rows.len() as u16 - 1);
    }
    let offset = rows.len() as u16;
    for id in 0..tables.concept_count() {
        rows.push(match tables.row(id) {
            [4, variable, _] => [3, roots[usize::from(variable)], roots[usize::from(variable)]],
            row => moved(row, offset),
        });
    }
    let shift = |ids: &[u16]| ids.iter().map(|id| id + offset).collect();
    Tables {
        concepts: rows.concat(),
        inclusions: shift(&tables.inclusions),
        questions: shift(&tables.questions),
        roles: tables.roles.clone(),
        variables: 0,
    }
}

fn moved([kind, a, b]: [u16; 3], offset: u16) -> [u16; 3] {
    match kind {
        2 => [2, a, b + offset],
        3 => [3, a + offset, b + offset],
        _ => [kind, a, b],
    }
}

/// Whether every question holds with the variables so replaced.
pub fn solves(tables: &Tables, substitution: &[Rows]) -> bool {
    reference::matching::solves(&replace(tables, substitution), &[])
}
