//! Subsumption by columns of bits: column j is the set of ids known to be subsumed by j. Along an
//! edge j -> k all of column j goes into column k at once; a worklist holds the columns that
//! changed.

use crate::checks::{Accepted, Input};

const MOST: usize = 192;
const NO_ID: u8 = 255;

/// A set of ids.
pub type Set = [u64; 3];

pub const EMPTY: Set = [0; 3];

pub fn has(set: &Set, id: usize) -> bool {
    set[id / 64] >> (id % 64) & 1 == 1
}

pub fn insert(set: &mut Set, id: usize) {
    set[id / 64] |= 1 << (id % 64);
}

pub fn count_ones(set: &Set) -> u32 {
    set.iter().map(|word| word.count_ones()).sum()
}

/// Calls `act` with the ids of the set, rising.
pub fn each(set: Set, mut act: impl FnMut(usize)) {
    for (block, mut word) in set.into_iter().enumerate() {
        while word != 0 {
            act(64 * block + word.trailing_zeros() as usize);
            word &= word - 1;
        }
    }
}

/// The first so many ids.
pub fn up_to(count: usize) -> Set {
    let mut set = EMPTY;
    for (block, word) in set.iter_mut().enumerate() {
        let ones = count.saturating_sub(64 * block).min(64);
        *word = if ones == 64 { u64::MAX } else { (1 << ones) - 1 };
    }
    set
}

pub struct Columns {
    count: usize,
    columns: [Set; MOST],
    /// Edges j -> k.
    edges: [Set; MOST],
    /// The conjunctions and variables that have j as a member.
    users: [Set; MOST],
    /// The members of a conjunction, or the atoms chosen for a variable.
    members: [Set; MOST],
    /// The existentials whose inner id is j.
    outer: [Set; MOST],
    /// The existentials whose role counts as this one.
    of_role: [Set; 100],
    role: [u8; MOST],
    inner_ids: Set,
    changed: Set,
    /// What of each column was last passed on.
    passed: [Set; MOST],
}

impl Columns {
    pub fn close(input: &Input, accepted: &Accepted, assignment: &[u64]) -> Columns {
        let mut state = Columns {
            count: accepted.count,
            columns: [EMPTY; MOST],
            edges: [EMPTY; MOST],
            users: [EMPTY; MOST],
            members: [EMPTY; MOST],
            outer: [EMPTY; MOST],
            of_role: [EMPTY; 100],
            role: [0; MOST],
            inner_ids: EMPTY,
            changed: up_to(accepted.count),
            passed: [EMPTY; MOST],
        };
        state.start(input, accepted, assignment);
        state.run();
        state
    }

    fn start(&mut self, input: &Input, accepted: &Accepted, assignment: &[u64]) {
        let mut latest = [NO_ID; 1000];
        for id in 0..self.count {
            insert(&mut self.columns[id], id);
            match input.row(id) {
                (0, _, _) => self.columns[id] = up_to(self.count),
                (1, name, _) => self.link_names(id, &mut latest[name]),
                (2, role, inner) => self.start_existential(id, role, inner),
                (3, first, second) => {
                    insert(&mut self.members[id], first);
                    insert(&mut self.members[id], second);
                    self.start_members(id);
                }
                (_, variable, _) => {
                    self.members[id] = chosen(accepted.atoms, assignment[variable]);
                    self.start_members(id);
                }
            }
        }
        for pair in input.inclusions.chunks_exact(2) {
            insert(&mut self.edges[usize::from(pair[0])], usize::from(pair[1]));
        }
        self.widen(input.roles);
    }

    /// The existentials of the narrow role are of the wide one too, until no pair adds any.
    fn widen(&mut self, roles: &[u16]) {
        let mut grown = !roles.is_empty();
        while grown {
            grown = false;
            for pair in roles.chunks_exact(2) {
                let narrow = self.of_role[usize::from(pair[0])];
                for (word, more) in self.of_role[usize::from(pair[1])].iter_mut().zip(narrow) {
                    grown |= more & !*word != 0;
                    *word |= more;
                }
            }
        }
    }

    /// Edges both ways between two rows of one name.
    fn link_names(&mut self, id: usize, latest: &mut u8) {
        if *latest != NO_ID {
            insert(&mut self.edges[id], usize::from(*latest));
            insert(&mut self.edges[usize::from(*latest)], id);
        }
        *latest = id as u8;
    }

    fn start_existential(&mut self, id: usize, role: usize, inner: usize) {
        self.role[id] = role as u8;
        insert(&mut self.of_role[role], id);
        insert(&mut self.outer[inner], id);
        insert(&mut self.inner_ids, inner);
    }

    fn start_members(&mut self, id: usize) {
        let members = self.members[id];
        if members == EMPTY {
            self.columns[id] = up_to(self.count);
        }
        for (edge, member) in self.edges[id].iter_mut().zip(members) {
            *edge |= member;
        }
        each(members, |member| insert(&mut self.users[member], id));
    }

    /// Sweeps over the changed columns, up and down in turn, so that long chains of either
    /// direction move in few sweeps.
    fn run(&mut self) {
        while self.changed != EMPTY {
            for block in 0..3 {
                self.sweep_up(block);
            }
            for block in (0..3).rev() {
                self.sweep_down(block);
            }
        }
    }

    fn sweep_up(&mut self, block: usize) {
        let mut ahead = u64::MAX;
        while self.changed[block] & ahead != 0 {
            let bit = (self.changed[block] & ahead).trailing_zeros();
            ahead = u64::MAX << bit << 1;
            self.pass_on(64 * block + bit as usize);
        }
    }

    fn sweep_down(&mut self, block: usize) {
        let mut ahead = u64::MAX;
        while self.changed[block] & ahead != 0 {
            let bit = 63 - (self.changed[block] & ahead).leading_zeros();
            ahead = (1 << bit) - 1;
            self.pass_on(64 * block + bit as usize);
        }
    }

    fn pass_on(&mut self, id: usize) {
        self.changed[id / 64] &= !(1 << (id % 64));
        let column = self.columns[id];
        each(self.edges[id], |to| self.add(to, column));
        each(self.users[id], |user| self.meet(user));
        if self.outer[id] != EMPTY {
            self.lift(id, column);
        }
        self.passed[id] = column;
    }

    fn add(&mut self, to: usize, more: Set) {
        let mut grown = 0;
        for (word, new) in self.columns[to].iter_mut().zip(more) {
            grown |= new & !*word;
            *word |= new;
        }
        if grown != 0 {
            insert(&mut self.changed, to);
        }
    }

    /// A conjunction, or a variable, holds what all its members hold.
    fn meet(&mut self, id: usize) {
        let mut common = [u64::MAX; 3];
        each(self.members[id], |member| {
            for (word, other) in common.iter_mut().zip(self.columns[member]) {
                *word &= other;
            }
        });
        self.add(id, common);
    }

    /// Column `inner` has new ids: existentials over them get an edge to the existentials over
    /// `inner` of the roles that theirs counts as.
    fn lift(&mut self, inner: usize, column: Set) {
        let mut fresh = EMPTY;
        for block in 0..3 {
            fresh[block] = column[block] & !self.passed[inner][block] & self.inner_ids[block];
        }
        let mut below = EMPTY;
        each(fresh, |id| {
            for (word, outer) in below.iter_mut().zip(self.outer[id]) {
                *word |= outer;
            }
        });
        each(self.outer[inner], |target| {
            let mut sources = self.of_role[usize::from(self.role[target])];
            for (word, source) in sources.iter_mut().zip(below) {
                *word &= source;
            }
            each(sources, |source| {
                insert(&mut self.edges[source], target);
                self.add(target, self.columns[source]);
            });
        });
    }

    /// Column j: the ids below j.
    pub fn columns(&self) -> &[Set; MOST] {
        &self.columns
    }

    pub fn holds(&self, left: usize, right: usize) -> bool {
        has(&self.columns[right], left)
    }

    /// How many pairs are below: the ones of the columns are those of the rows.
    pub fn marks(&self) -> u64 {
        self.columns[..self.count].iter().map(|column| u64::from(count_ones(column))).sum()
    }

    /// Rows are the columns transposed, 64 by 64 bits at a time: calls `put` with 64 rows from
    /// `64 * down` on and their words at the place `across`.
    fn each_block(&self, mut put: impl FnMut(usize, usize, &[u64; 64])) {
        let blocks = (self.count + 63) / 64;
        for down in 0..blocks {
            for across in 0..blocks {
                let mut block = [0; 64];
                for (k, word) in block.iter_mut().enumerate() {
                    *word = self.columns[64 * across + k][down];
                }
                transpose(&mut block);
                put(down, across, &block);
            }
        }
    }

    pub fn write_rows(&self, out: &mut [u8]) {
        out.fill(0);
        self.each_block(|down, across, block| {
            let rows = out.chunks_exact_mut(24).skip(64 * down);
            for (row, word) in rows.zip(block) {
                row[8 * across..8 * across + 8].copy_from_slice(&word.to_le_bytes());
            }
        });
    }

    /// Row i: the ids that i is below.
    pub fn rows(&self) -> [Set; MOST] {
        let mut rows = [EMPTY; MOST];
        self.each_block(|down, across, block| {
            let part = &mut rows[64 * down..64 * down + 64];
            part.iter_mut().zip(block).for_each(|(row, word)| row[across] = *word);
        });
        rows
    }
}

/// The ids at the chosen positions among the atoms.
pub fn chosen(atoms: Set, choice: u64) -> Set {
    let mut ids = EMPTY;
    let mut rest = choice;
    each(atoms, |id| {
        if rest & 1 == 1 {
            insert(&mut ids, id);
        }
        rest >>= 1;
    });
    ids
}

/// Bit c of word r changes places with bit r of word c.
fn transpose(block: &mut [u64; 64]) {
    let mut width = 32;
    let mut mask = u64::MAX >> 32;
    while width != 0 {
        let mut k = 0;
        while k < 64 {
            let swap = (block[k] >> width ^ block[k + width]) & mask;
            block[k] ^= swap << width;
            block[k + width] ^= swap;
            k = (k + width + 1) & !width;
        }
        width /= 2;
        mask ^= mask << width;
    }
}
