//! A held table closed under the rules by rows of bits: row i is the set of ids that i is marked
//! below. Each row looks once at those that it reads, and then passes on what is new in it.

use crate::checks::{Accepted, Input};
use crate::columns::{each, insert, up_to, Set, EMPTY};
use crate::roles::{each_bit, wider};

const MOST: usize = 192;
const ROW_BYTES: usize = 24;

fn join(set: &mut Set, other: &Set) {
    set.iter_mut().zip(other).for_each(|(word, more)| *word |= more);
}

fn meet(one: &Set, other: &Set) -> Set {
    [one[0] & other[0], one[1] & other[1], one[2] & other[2]]
}

fn without(one: &Set, other: &Set) -> Set {
    [one[0] & !other[0], one[1] & !other[1], one[2] & !other[2]]
}

pub struct Rows {
    count: usize,
    rows: [Set; MOST],
    /// What of each row needs no passing on, and the rows that have more.
    passed: [Set; MOST],
    open: Set,
    /// The right sides of the inclusions from j, and the left sides of those to j.
    rights: [Set; MOST],
    lefts: [Set; MOST],
    /// The members of a conjunction, or the atoms chosen for a variable; and who has j as a member.
    members: [Set; MOST],
    users: [Set; MOST],
    /// Of an existential its inner id, and those of the roles that its own counts as; the
    /// existentials over j.
    inner: [u8; MOST],
    outer: [Set; MOST],
    targets: [Set; MOST],
    inner_ids: Set,
    /// Left sides and members.
    used: Set,
}

impl Rows {
    /// `chosen` has each variable's atoms.
    pub fn close(input: &Input, accepted: &Accepted, chosen: &[Set; 8], table: &[u8]) -> Rows {
        let mut state = Rows {
            count: accepted.count,
            rows: [EMPTY; MOST],
            passed: [EMPTY; MOST],
            open: EMPTY,
            rights: [EMPTY; MOST],
            lefts: [EMPTY; MOST],
            members: [EMPTY; MOST],
            users: [EMPTY; MOST],
            inner: [0; MOST],
            outer: [EMPTY; MOST],
            targets: [EMPTY; MOST],
            inner_ids: EMPTY,
            used: EMPTY,
        };
        state.load(table);
        state.start(input, chosen);
        state.passed = state.rows;
        state.run();
        state
    }

    fn load(&mut self, table: &[u8]) {
        let known = up_to(self.count);
        for (row, bytes) in self.rows[..self.count].iter_mut().zip(table.chunks_exact(ROW_BYTES)) {
            for (word, part) in row.iter_mut().zip(bytes.chunks_exact(8)) {
                *word = u64::from_le_bytes(part.try_into().expect("eight bytes"));
            }
            *row = meet(row, &known);
        }
    }

    /// Adds the marks to those of the table.
    pub fn store(&self, table: &mut [u8]) {
        for (row, bytes) in self.rows[..self.count].iter().zip(table.chunks_exact_mut(ROW_BYTES)) {
            let words = row.iter().flat_map(|word| word.to_le_bytes());
            bytes.iter_mut().zip(words).for_each(|(byte, more)| *byte |= more);
        }
    }

    /// Marks that need no other, and who is to be asked about whom.
    fn start(&mut self, input: &Input, chosen: &[Set; 8]) {
        let mut everywhere = EMPTY;
        let mut of_name = [EMPTY; 1000];
        let mut of_role = [EMPTY; 100];
        for id in 0..self.count {
            match input.row(id) {
                (0, _, _) => insert(&mut everywhere, id),
                (1, name, _) => insert(&mut of_name[name], id),
                (2, role, inner) => {
                    self.inner[id] = inner as u8;
                    insert(&mut self.outer[inner], id);
                    insert(&mut self.inner_ids, inner);
                    insert(&mut of_role[role], id);
                }
                (3, first, second) => {
                    insert(&mut self.members[id], first);
                    insert(&mut self.members[id], second);
                }
                (_, variable, _) => {
                    self.members[id] = chosen[variable];
                    if chosen[variable] == EMPTY {
                        insert(&mut everywhere, id);
                    }
                }
            }
            each(self.members[id], |member| insert(&mut self.users[member], id));
            join(&mut self.used, &self.members[id]);
        }
        for pair in input.inclusions.chunks_exact(2) {
            let (left, right) = (usize::from(pair[0]), usize::from(pair[1]));
            insert(&mut self.rights[left], right);
            insert(&mut self.used, left);
            insert(&mut self.lefts[right], left);
        }
        for id in 0..self.count {
            insert(&mut self.rows[id], id);
            join(&mut self.rows[id], &everywhere);
            if let (1, name, _) = input.row(id) {
                join(&mut self.rows[id], &of_name[name]);
            }
        }
        self.widen(input, &of_role);
    }

    fn widen(&mut self, input: &Input, of_role: &[Set; 100]) {
        let wider = wider(input.roles);
        for id in 0..self.count {
            if let (2, role, _) = input.row(id) {
                let roles = wider.get(role).copied().unwrap_or(1 << role);
                each_bit(roles, |wide| join(&mut self.targets[id], &of_role[wide]));
            }
        }
    }

    /// Every row looks once at those that it reads; then what became new is passed on. The lowest row
    /// comes first, since rows of higher ids read lower ones more often than the other way round.
    fn run(&mut self) {
        (0..self.count).for_each(|id| self.look(id));
        while let Some(block) = self.open.iter().position(|&word| word != 0) {
            self.pass_on(64 * block + self.open[block].trailing_zeros() as usize);
        }
    }

    fn look(&mut self, id: usize) {
        let mut row = self.rows[id];
        each(self.members[id], |member| join(&mut row, &self.rows[member]));
        if self.targets[id] != EMPTY {
            let inner = self.rows[usize::from(self.inner[id])];
            join(&mut row, &meet(&self.over(&inner), &self.targets[id]));
        }
        self.add(id, &row);
        self.take_up(id, &row);
    }

    fn pass_on(&mut self, id: usize) {
        self.open[id / 64] &= !(1 << (id % 64));
        let fresh = without(&self.rows[id], &self.passed[id]);
        self.passed[id] = self.rows[id];
        self.take_up(id, &fresh);
        each(self.users[id], |user| self.add(user, &fresh));
        if self.outer[id] != EMPTY {
            let over = self.over(&fresh);
            each(self.outer[id], |outer| self.add(outer, &meet(&over, &self.targets[outer])));
        }
        if self.lefts[id] != EMPTY {
            self.pass_to_lefts(id, &fresh);
        }
    }

    /// The existentials over these.
    fn over(&self, ids: &Set) -> Set {
        let mut over = EMPTY;
        each(meet(ids, &self.inner_ids), |inner| join(&mut over, &self.outer[inner]));
        over
    }

    /// What a row gets from these of its ids: by inclusions, and whose members it now has all.
    fn take_up(&mut self, id: usize, ids: &Set) {
        let (mut row, mut users) = (self.rows[id], EMPTY);
        each(meet(ids, &self.used), |new| {
            each(self.rights[new], |right| join(&mut row, &self.rows[right]));
            join(&mut users, &self.users[new]);
        });
        each(without(&users, &row), |user| {
            if without(&self.members[user], &row) == EMPTY {
                insert(&mut row, user);
            }
        });
        self.add(id, &row);
    }

    /// To the rows that hold the left side of an inclusion with this right side.
    fn pass_to_lefts(&mut self, id: usize, fresh: &Set) {
        for reader in 0..self.count {
            if meet(&self.rows[reader], &self.lefts[id]) != EMPTY {
                self.add(reader, fresh);
            }
        }
    }

    fn add(&mut self, id: usize, more: &Set) {
        if without(more, &self.rows[id]) != EMPTY {
            join(&mut self.rows[id], more);
            insert(&mut self.open, id);
        }
    }
}
