//! Membership in a given interpretation, by sets of elements: one pass over the rows gathers the
//! names and links that the asked concept speaks of, and then each concept that it needs gets the
//! set of its members, inner ids first.

use crate::checks::{Accepted, Input, Stock};
use crate::columns::{chosen, each, has, insert, up_to, Set, EMPTY};

const MOST: usize = 192;
const NO_SLOT: u8 = 255;

/// Whether the element is a member of the concept. All must be accepted.
pub fn holds(
    input: &Input,
    accepted: &Accepted,
    assignment: &[u64],
    stock: Stock,
    (concept, element): (u16, u16),
) -> bool {
    let concept = usize::from(concept);
    let mut members = Members::new(input, stock);
    let atoms = |variable: usize| chosen(accepted.atoms, assignment[variable]);
    let (patterns, ground) = needed(input, concept, atoms);
    each(ground, |id| members.note(id));
    each(patterns, |id| members.note(id));
    members.read();
    each(ground, |id| members.find(id, atoms));
    each(patterns, |id| members.find(id, atoms));
    has(&members.of[concept], usize::from(element))
}

/// The ids that the concept needs, and those that the atoms chosen in it need, which may be higher.
fn needed(input: &Input, concept: usize, atoms: impl Fn(usize) -> Set) -> (Set, Set) {
    let (mut ids, mut ground) = (EMPTY, EMPTY);
    insert(&mut ids, concept);
    for id in (0..=concept).rev() {
        if has(&ids, id) {
            if let (4, variable, _) = input.row(id) {
                ground.iter_mut().zip(atoms(variable)).for_each(|(word, more)| *word |= more);
            }
            need_inner(input, id, &mut ids);
        }
    }
    for id in (0..input.concepts.len() / 3).rev() {
        if has(&ground, id) {
            need_inner(input, id, &mut ground);
        }
    }
    (ids, ground)
}

fn need_inner(input: &Input, id: usize, ids: &mut Set) {
    match input.row(id) {
        (2, _, inner) => insert(ids, inner),
        (3, first, second) => {
            insert(ids, first);
            insert(ids, second);
        }
        _ => {}
    }
}

struct Members<'a> {
    input: &'a Input<'a>,
    stock: Stock<'a>,
    size: usize,
    /// Places of the names and roles that are asked for, and how many there are.
    name_slots: [u8; 1000],
    role_slots: [u8; 100],
    names: usize,
    roles: usize,
    named: [Set; MOST],
    /// For each role the targets of each element.
    links: Vec<Set>,
    /// The members of each concept that was found.
    of: [Set; MOST],
}

impl<'a> Members<'a> {
    fn new(input: &'a Input<'a>, stock: Stock<'a>) -> Members<'a> {
        Members {
            input,
            stock,
            size: usize::from(stock.size),
            name_slots: [NO_SLOT; 1000],
            role_slots: [NO_SLOT; 100],
            names: 0,
            roles: 0,
            named: [EMPTY; MOST],
            links: Vec::new(),
            of: [EMPTY; MOST],
        }
    }

    /// Gives the concept's name or role a place.
    fn note(&mut self, id: usize) {
        let (slot, used) = match self.input.row(id) {
            (1, name, _) => (&mut self.name_slots[name], &mut self.names),
            (2, role, _) => (&mut self.role_slots[role], &mut self.roles),
            _ => return,
        };
        if *slot == NO_SLOT {
            *slot = *used as u8;
            *used += 1;
        }
    }

    fn read(&mut self) {
        self.links = vec![EMPTY; self.roles * self.size];
        for row in self.stock.rows.chunks_exact(4) {
            let (x, symbol) = (usize::from(row[1]), usize::from(row[2]));
            let slots: &[u8] = if row[0] == 0 { &self.name_slots } else { &self.role_slots };
            let slot = usize::from(slots.get(symbol).copied().unwrap_or(NO_SLOT));
            if slot == usize::from(NO_SLOT) {
                continue;
            }
            if row[0] == 0 {
                insert(&mut self.named[slot], x);
            } else {
                insert(&mut self.links[slot * self.size + x], usize::from(row[3]));
            }
        }
    }

    fn find(&mut self, id: usize, atoms: impl Fn(usize) -> Set) {
        let mut found = EMPTY;
        match self.input.row(id) {
            (0, _, _) => found = up_to(self.size),
            (1, name, _) => found = self.named[usize::from(self.name_slots[name])],
            (2, role, inner) => {
                let from = usize::from(self.role_slots[role]) * self.size;
                let inside = self.of[inner];
                for (x, targets) in self.links[from..from + self.size].iter().enumerate() {
                    if targets.iter().zip(inside).any(|(word, other)| word & other != 0) {
                        insert(&mut found, x);
                    }
                }
            }
            (3, first, second) => {
                found = self.of[first];
                found.iter_mut().zip(self.of[second]).for_each(|(word, other)| *word &= other);
            }
            (_, variable, _) => {
                found = up_to(self.size);
                each(atoms(variable), |atom| {
                    found.iter_mut().zip(self.of[atom]).for_each(|(word, other)| *word &= other);
                });
            }
        }
        self.of[id] = found;
    }
}
