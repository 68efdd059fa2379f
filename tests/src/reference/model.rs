//! The canonical interpretation, built by repair.
//!
//! It has one element for each concept id. Element i starts with the names and links that concept
//! i spells out; a link goes to the element of its inner id. As long as an element is a member of
//! an inclusion's left side and not of its right, it is given what the right side spells out. A link
//! stands under each role that it counts as from the start, so the role pairs are obeyed throughout.
//! When nothing is missing the interpretation obeys both tables and i is a member of i; and as
//! nothing was added that is not forced, i is subsumed by j exactly when element i is a member
//! of j.

use std::collections::BTreeSet;

use super::{atoms, roles};
use crate::semantics::{missing_link, Interpretation};
use crate::tables::{Concept, Tables};

pub struct Canonical {
    pub interpretation: Interpretation,
    /// Row x, column j: element x is a member of concept j.
    pub members: Vec<Vec<bool>>,
}

impl Canonical {
    /// The tables must be accepted; `chosen` lists each variable's atoms.
    pub fn build(tables: &Tables, chosen: &[Vec<usize>]) -> Canonical {
        let spelt = spell_out(tables, chosen);
        let mut interpretation = spelt.clone();
        loop {
            let members = membership(&interpretation, tables, chosen);
            if !repair(&mut interpretation, &spelt, &members, tables) {
                return Canonical { interpretation, members };
            }
        }
    }
}

/// What each concept says at its top level. The order of work lets a variable choose atoms of
/// higher ids: what holds no variable comes first.
fn spell_out(tables: &Tables, chosen: &[Vec<usize>]) -> Interpretation {
    let mut spelt = Interpretation::empty(tables.concept_count());
    for id in working_order(tables) {
        match tables.concept(id) {
            Concept::Top => {}
            Concept::Name(name) => {
                spelt.names[id].insert(name);
            }
            Concept::Existential(role, inner) => {
                let wider = roles::wider(tables, role);
                spelt.links[id].extend(wider.into_iter().map(|wide| (wide, inner)));
            }
            Concept::Conjunction(first, second) => {
                copy(&mut spelt, first, id);
                copy(&mut spelt, second, id);
            }
            Concept::Variable(variable) => {
                for &atom in &chosen[variable] {
                    copy(&mut spelt, atom, id);
                }
            }
        }
    }
    spelt
}

fn copy(spelt: &mut Interpretation, from: usize, to: usize) {
    let names: BTreeSet<u16> = spelt.names[from].clone();
    let links: BTreeSet<(u16, usize)> = spelt.links[from].clone();
    spelt.names[to].extend(names);
    spelt.links[to].extend(links);
}

fn working_order(tables: &Tables) -> Vec<usize> {
    let pattern = atoms::patterns(tables);
    let (held, ground): (Vec<usize>, Vec<usize>) =
        (0..tables.concept_count()).partition(|&id| pattern[id]);
    [ground, held].concat()
}

/// Membership of every element in every concept, each found once; row x is element x. The tables
/// must be accepted; `chosen` lists each variable's atoms.
pub fn membership(
    interpretation: &Interpretation,
    tables: &Tables,
    chosen: &[Vec<usize>],
) -> Vec<Vec<bool>> {
    let size = interpretation.size();
    let mut of = vec![vec![false; tables.concept_count()]; size];
    for id in working_order(tables) {
        for x in 0..size {
            of[x][id] = match tables.concept(id) {
                Concept::Top => true,
                Concept::Name(name) => interpretation.names[x].contains(&name),
                Concept::Existential(role, inner) => interpretation.links[x]
                    .range((role, 0)..=(role, size))
                    .any(|&(_, target)| of[target][inner]),
                Concept::Conjunction(first, second) => of[x][first] && of[x][second],
                Concept::Variable(variable) => chosen[variable].iter().all(|&atom| of[x][atom]),
            };
        }
    }
    of
}

/// Whether an interpretation obeys both tables, which must be accepted, by membership found once.
pub fn obeys(interpretation: &Interpretation, tables: &Tables) -> bool {
    // inclusions hold no variable, so nothing is chosen
    let nothing = vec![Vec::new(); usize::from(tables.variables)];
    let members = membership(interpretation, tables, &nothing);
    let obeyed = |&(left, right): &(usize, usize)| members.iter().all(|of| !of[left] || of[right]);
    missing_link(interpretation, tables).is_none() && tables.inclusion_pairs().iter().all(obeyed)
}

/// Gives each element what the inclusions ask of it; whether any lacked something.
fn repair(
    interpretation: &mut Interpretation,
    spelt: &Interpretation,
    members: &[Vec<bool>],
    tables: &Tables,
) -> bool {
    let mut repaired = false;
    for (left, right) in tables.inclusion_pairs() {
        for (x, member) in members.iter().enumerate() {
            if member[left] && !member[right] {
                interpretation.names[x].extend(&spelt.names[right]);
                interpretation.links[x].extend(&spelt.links[right]);
                repaired = true;
            }
        }
    }
    repaired
}
