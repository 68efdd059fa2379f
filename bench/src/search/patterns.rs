//! Pattern tests. Whether one variable-free concept is below another does not depend on the
//! assignment: it is read from one table, made under the empty one. What a pattern is below, or
//! above, among the variable-free concepts follows from its inner ids:
//!
//! - above a pattern, upwards closed: of a variable the rows of its atoms, of a conjunction both
//!   values, of an existential the rows of the existentials over what its inner id is below, with
//!   a role that its own counts as; then every conjunction of two that are there;
//! - below a pattern: of a variable the columns of its atoms met, of a conjunction both values met,
//!   of an existential the columns of the existentials over what is below its inner id, with a role
//!   that counts as its own.

use super::pairs::Choice;
use super::questions::Question;
use crate::checks::{Accepted, Input};
use crate::columns::{each, has, insert, Columns, Set, EMPTY};
use crate::roles::wider;

const MOST: usize = 192;

pub struct Patterns {
    pub kind: [u8; MOST],
    /// Inner ids, and the role of an existential or the number of a variable as the first.
    pub first: [u8; MOST],
    pub second: [u8; MOST],
    /// The variables that stand in an id, as bits.
    pub variables: [u8; MOST],
    /// The variable-free ids, and the existentials and conjunctions among them.
    ground: Set,
    existentials: Set,
    pub conjunctions: Set,
    atoms: [u8; 64],
    /// Rows and columns of the table; of a pattern, its value under the assignment tested last.
    pub above: [Set; MOST],
    pub below: [Set; MOST],
    above_top: Set,
    /// The existentials that one with variables is below, as far as roles go, and is above.
    pub wide: [Set; MOST],
    narrow: [Set; MOST],
    /// The conjunctions to close a pattern under.
    pub closing: [Set; MOST],
}

fn meet(a: &Set, b: &Set) -> Set {
    [a[0] & b[0], a[1] & b[1], a[2] & b[2]]
}

fn join(a: &mut Set, b: &Set) {
    for k in 0..3 {
        a[k] |= b[k];
    }
}

impl Patterns {
    pub fn new(input: &Input, accepted: &Accepted, closed: &Columns) -> Patterns {
        let mut made = Patterns {
            kind: [0; MOST],
            first: [0; MOST],
            second: [0; MOST],
            variables: [0; MOST],
            ground: EMPTY,
            existentials: EMPTY,
            conjunctions: EMPTY,
            atoms: [0; 64],
            above: closed.rows(),
            below: *closed.columns(),
            above_top: EMPTY,
            wide: [EMPTY; MOST],
            narrow: [EMPTY; MOST],
            closing: [EMPTY; MOST],
        };
        for id in 0..accepted.count {
            made.read_row(id, input.row(id));
        }
        made.keep_ground(accepted.count);
        made.fit_roles(input.roles, accepted.count);
        let mut count = 0;
        each(accepted.atoms, |id| {
            made.atoms[count] = id as u8;
            count += 1;
        });
        made
    }

    fn read_row(&mut self, id: usize, (kind, a, b): (u16, usize, usize)) {
        self.kind[id] = kind as u8;
        // names go up to 999, but are not asked for
        self.first[id] = a as u8;
        self.second[id] = b as u8;
        self.variables[id] = match kind {
            2 => self.variables[b],
            3 => self.variables[a] | self.variables[b],
            4 => 1 << a,
            _ => 0,
        };
        if self.variables[id] != 0 {
            return;
        }
        insert(&mut self.ground, id);
        match kind {
            2 => insert(&mut self.existentials, id),
            3 => insert(&mut self.conjunctions, id),
            _ => {}
        }
    }

    fn keep_ground(&mut self, count: usize) {
        for id in 0..count {
            self.above[id] = meet(&self.above[id], &self.ground);
            self.below[id] = meet(&self.below[id], &self.ground);
            if self.kind[id] == 0 {
                self.above_top = self.above[id];
            }
        }
    }

    /// Roles enter here and nowhere else.
    fn fit_roles(&mut self, roles: &[u16], count: usize) {
        let wider = wider(roles);
        let counts_as = |narrow: u8, wide: u8| match wider.get(usize::from(narrow)) {
            None => narrow == wide,
            Some(roles) => roles >> wide & 1 == 1,
        };
        for id in 0..count {
            if self.kind[id] != 2 || self.variables[id] == 0 {
                continue;
            }
            let role = self.first[id];
            each(self.existentials, |other| {
                if counts_as(role, self.first[other]) {
                    insert(&mut self.wide[id], other);
                }
                if counts_as(self.first[other], role) {
                    insert(&mut self.narrow[id], other);
                }
            });
        }
    }

    pub fn holds(&mut self, question: &Question, choice: &Choice) -> bool {
        let (left, right) = (question.left, question.right);
        for word in 0..3 {
            let mut rest = question.cone[word];
            while rest != 0 {
                let id = 64 * word + rest.trailing_zeros() as usize;
                rest &= rest - 1;
                if question.on_right {
                    self.below[id] = self.value_below(id, choice);
                } else {
                    self.above[id] = self.value_above(id, choice);
                }
            }
        }
        if question.on_right {
            return has(&self.below[right], left);
        }
        has(&self.above[left], right)
    }

    fn value_below(&self, id: usize, choice: &Choice) -> Set {
        let (first, second) = (usize::from(self.first[id]), usize::from(self.second[id]));
        match self.kind[id] {
            2 => self.over_inner(&self.narrow[id], &self.below[second], &self.below, EMPTY),
            3 => meet(&self.below[first], &self.below[second]),
            _ => self.met_atoms(choice[first]),
        }
    }

    fn value_above(&self, id: usize, choice: &Choice) -> Set {
        let (first, second) = (usize::from(self.first[id]), usize::from(self.second[id]));
        let mut value = self.above_top;
        match self.kind[id] {
            2 => value = self.over_inner(&self.wide[id], &self.above[second], &self.above, value),
            3 => {
                join(&mut value, &self.above[first]);
                join(&mut value, &self.above[second]);
            }
            _ => self.join_atoms(choice[first], &mut value),
        }
        self.close(&self.closing[id], value)
    }

    fn met_atoms(&self, choice: u64) -> Set {
        let mut value = self.ground;
        let mut rest = choice;
        while rest != 0 {
            let atom = usize::from(self.atoms[rest.trailing_zeros() as usize]);
            value = meet(&value, &self.below[atom]);
            rest &= rest - 1;
        }
        value
    }

    fn join_atoms(&self, choice: u64, value: &mut Set) {
        let mut rest = choice;
        while rest != 0 {
            let atom = usize::from(self.atoms[rest.trailing_zeros() as usize]);
            join(value, &self.above[atom]);
            rest &= rest - 1;
        }
    }

    /// With the sets of those existentials whose inner id is in a set.
    fn over_inner(&self, ids: &Set, inner: &Set, sets: &[Set; MOST], start: Set) -> Set {
        let mut value = start;
        for word in 0..3 {
            let mut rest = ids[word];
            while rest != 0 {
                let id = 64 * word + rest.trailing_zeros() as usize;
                rest &= rest - 1;
                if has(inner, usize::from(self.second[id])) {
                    join(&mut value, &sets[id]);
                }
            }
        }
        value
    }

    /// With every one of these conjunctions whose members are both there, until there is no more.
    fn close(&self, conjunctions: &Set, start: Set) -> Set {
        let mut value = start;
        loop {
            let before = value;
            for word in 0..3 {
                let mut rest = conjunctions[word] & !value[word];
                while rest != 0 {
                    let id = 64 * word + rest.trailing_zeros() as usize;
                    rest &= rest - 1;
                    let (first, second) = (self.first[id], self.second[id]);
                    if has(&value, usize::from(first)) && has(&value, usize::from(second)) {
                        join(&mut value, &self.above[id]);
                    }
                }
            }
            if value == before {
                return value;
            }
        }
    }
}
