//! The interpretation that is shown where a pair fails: of each element the names as bits, and for
//! each role the targets as a set of ids. One pass counts the rows, another writes them.

use crate::checks::{Input, Refusal};
use crate::columns::{count_ones, each, insert, Columns, Set, EMPTY};
use crate::roles::{each_bit, wider};

const MOST: usize = 192;
const NAME_WORDS: usize = 16;

type Names = [u64; NAME_WORDS];

/// How many rows were written.
pub fn write(
    input: &Input,
    closed: &Columns,
    pair: (u16, u16),
    out: &mut [u16],
) -> Result<u64, Refusal> {
    if closed.holds(usize::from(pair.0), usize::from(pair.1)) {
        return Err((15, 0));
    }
    let shown = Shown::new(input, closed);
    let mut rows = 0;
    for x in 0..shown.count {
        rows += shown.names(x).iter().map(|word| u64::from(word.count_ones())).sum::<u64>();
        let (targets, used) = shown.links(x);
        each_bit(used, |role| rows += u64::from(count_ones(&targets[role])));
    }
    if (out.len() as u64) < 4 * rows {
        return Err((8, 4 * rows));
    }
    shown.write(&mut out[..4 * rows as usize]);
    Ok(rows)
}

struct Shown<'a> {
    input: &'a Input<'a>,
    count: usize,
    /// Row i: what i is below.
    above: [Set; MOST],
    named: Set,
    existentials: Set,
    /// For each role those that it counts as.
    wider: Vec<u128>,
}

impl<'a> Shown<'a> {
    fn new(input: &'a Input<'a>, closed: &Columns) -> Shown<'a> {
        let mut shown = Shown {
            input,
            count: input.concepts.len() / 3,
            above: closed.rows(),
            named: EMPTY,
            existentials: EMPTY,
            wider: wider(input.roles),
        };
        for id in 0..shown.count {
            match input.row(id).0 {
                1 => insert(&mut shown.named, id),
                2 => insert(&mut shown.existentials, id),
                _ => {}
            }
        }
        shown
    }

    fn above_among(&self, x: usize, ids: &Set) -> Set {
        let mut above = self.above[x];
        above.iter_mut().zip(ids).for_each(|(word, other)| *word &= other);
        above
    }

    fn names(&self, x: usize) -> Names {
        let mut names = [0; NAME_WORDS];
        each(self.above_among(x, &self.named), |id| {
            let name = self.input.row(id).1;
            names[name / 64] |= 1 << (name % 64);
        });
        names
    }

    /// The targets by role, and the roles that have any.
    fn links(&self, x: usize) -> ([Set; 100], u128) {
        let mut targets = [EMPTY; 100];
        let mut used = 0;
        each(self.above_among(x, &self.existentials), |id| {
            let (_, role, inner) = self.input.row(id);
            let roles = self.wider.get(role).copied().unwrap_or(1 << role);
            used |= roles;
            each_bit(roles, |wide| insert(&mut targets[wide], inner));
        });
        (targets, used)
    }

    fn write(&self, out: &mut [u16]) {
        let mut rows = out.chunks_exact_mut(4);
        let mut put = |row: [usize; 4]| {
            let place = rows.next().expect("as many rows as were counted");
            place.iter_mut().zip(row).for_each(|(number, due)| *number = due as u16);
        };
        for x in 0..self.count {
            for (block, mut word) in self.names(x).into_iter().enumerate() {
                while word != 0 {
                    put([0, x, 64 * block + word.trailing_zeros() as usize, 0]);
                    word &= word - 1;
                }
            }
        }
        for x in 0..self.count {
            let (targets, used) = self.links(x);
            each_bit(used, |role| each(targets[role], |inner| put([1, x, role, inner])));
        }
    }
}
