//! Tables put together row by row, for problems that are built and not drawn.

use crate::tables::Tables;

/// Tables in the making. An id's place decides where its atom stands in the order.
#[derive(Default)]
pub struct Builder {
    pub rows: Vec<[u16; 3]>,
    pub inclusions: Vec<[u16; 2]>,
    pub questions: Vec<[u16; 2]>,
    names: u16,
    variables: u16,
}

impl Builder {
    pub fn add(&mut self, row: [u16; 3]) -> u16 {
        self.rows.push(row);
        (self.rows.len() - 1) as u16
    }

    /// A name of its own.
    pub fn name(&mut self) -> u16 {
        self.names += 1;
        self.add([1, self.names - 1, 0])
    }

    pub fn names(&mut self, count: usize) -> Vec<u16> {
        (0..count).map(|_| self.name()).collect()
    }

    pub fn variable(&mut self) -> u16 {
        self.variables += 1;
        self.add([4, self.variables - 1, 0])
    }

    pub fn some(&mut self, role: u16, inner: u16) -> u16 {
        self.add([2, role, inner])
    }

    pub fn and(&mut self, first: u16, second: u16) -> u16 {
        self.add([3, first, second])
    }

    /// The conjunction of all, one by one.
    pub fn all(&mut self, ids: &[u16]) -> u16 {
        let mut ids = ids.iter().copied();
        let first = ids.next().expect("a conjunction of something");
        ids.fold(first, |sum, id| self.and(sum, id))
    }

    /// Makes atoms of ids and changes nothing else.
    pub fn atoms(&mut self, ids: &[u16]) {
        self.inclusions.extend(ids.iter().map(|&id| [id, id]));
    }

    pub fn ask(&mut self, left: u16, right: u16) {
        self.questions.push([left, right]);
    }

    /// K atoms, and what is below each of them and below nothing else.
    pub fn harmless(&mut self, k: usize) -> (Vec<u16>, u16) {
        let names = self.names(k);
        self.atoms(&names);
        let below = self.all(&names);
        (names, below)
    }

    /// "Some" of each, for a question whose right side is "some" of a pattern: the pattern must
    /// hold one of them.
    pub fn witnesses(&mut self, role: u16, ids: &[u16]) -> u16 {
        let some: Vec<u16> = ids.iter().map(|&id| self.some(role, id)).collect();
        self.all(&some)
    }

    pub fn tables(&self) -> Tables {
        Tables::new(&self.rows, &self.inclusions, &self.questions, self.variables)
    }
}
