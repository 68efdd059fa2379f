//! Buffers lent to the library between two guards of noise.

use std::ptr;

use crate::random::Random;
use crate::tables::{Tables, TablesRef};

/// Cells kept on each side of a lent buffer, to see writes outside it. An odd number puts buffers
/// of bytes at odd addresses.
const GUARD: usize = 41;

pub trait Noise: Copy + PartialEq {
    fn noise(random: &mut Random) -> Self;
}

impl Noise for u8 {
    fn noise(random: &mut Random) -> Self {
        random.number() as u8
    }
}

impl Noise for u16 {
    fn noise(random: &mut Random) -> Self {
        random.number() as u16
    }
}

impl Noise for u32 {
    fn noise(random: &mut Random) -> Self {
        random.number() as u32
    }
}

impl Noise for u64 {
    fn noise(random: &mut Random) -> Self {
        random.number()
    }
}

pub struct Lent<T> {
    cells: Vec<T>,
    before: Vec<T>,
    len: usize,
}

impl<T: Noise> Lent<T> {
    /// A buffer full of noise.
    pub fn noise(len: usize, random: &mut Random) -> Self {
        let cells: Vec<T> = (0..len + 2 * GUARD).map(|_| T::noise(random)).collect();
        let before = cells.clone();
        Lent { cells, before, len }
    }

    /// A copy of `content`, to be lent for reading.
    pub fn holding(content: &[T], random: &mut Random) -> Self {
        let mut lent = Lent::noise(content.len(), random);
        lent.cells[GUARD..GUARD + content.len()].copy_from_slice(content);
        lent.before.clone_from(&lent.cells);
        lent
    }

    pub fn slice(&self) -> &[T] {
        &self.cells[GUARD..GUARD + self.len]
    }

    pub fn slice_mut(&mut self) -> &mut [T] {
        &mut self.cells[GUARD..GUARD + self.len]
    }

    /// The buffer begins with `written`, and all else, guards included, is as it was lent. The
    /// reads are volatile, so that no compiler takes a cell lent for reading to be unchanged.
    pub fn holds(&self, written: &[T]) -> bool {
        if written.len() > self.len {
            return false;
        }
        (0..self.cells.len()).all(|at| {
            let wanted = match at.checked_sub(GUARD) {
                Some(k) if k < written.len() => written[k],
                _ => self.before[at],
            };
            let now = unsafe { ptr::read_volatile(&self.cells[at]) };
            now == wanted
        })
    }

    pub fn unchanged(&self) -> bool {
        self.holds(&[])
    }
}

/// Copies of the tables and of the assignment, lent for one call.
pub struct LentInputs {
    concepts: Lent<u16>,
    inclusions: Lent<u16>,
    questions: Lent<u16>,
    roles: Lent<u16>,
    variables: u16,
    assignment: Lent<u64>,
}

impl LentInputs {
    pub fn new(tables: &Tables, assignment: &[u64], random: &mut Random) -> Self {
        LentInputs {
            concepts: Lent::holding(&tables.concepts, random),
            inclusions: Lent::holding(&tables.inclusions, random),
            questions: Lent::holding(&tables.questions, random),
            roles: Lent::holding(&tables.roles, random),
            variables: tables.variables,
            assignment: Lent::holding(assignment, random),
        }
    }

    pub fn tables(&self) -> TablesRef<'_> {
        TablesRef {
            concepts: self.concepts.slice(),
            inclusions: self.inclusions.slice(),
            questions: self.questions.slice(),
            roles: self.roles.slice(),
            variables: self.variables,
        }
    }

    pub fn assignment(&self) -> &[u64] {
        self.assignment.slice()
    }

    pub fn unchanged(&self) -> bool {
        self.concepts.unchanged()
            && self.inclusions.unchanged()
            && self.questions.unchanged()
            && self.roles.unchanged()
            && self.assignment.unchanged()
    }
}
