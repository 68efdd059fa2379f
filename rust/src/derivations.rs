//! Derivations: why a pair is subsumed.

use crate::raw;
use crate::refusal::{Asked, Beside};
use crate::{limits, Result, Tables};

/// Lines of four numbers: a rule, the left id, the right id and one number more. The premises of a line stand
/// before it. By the rules the left is subsumed by the right, since
///
/// 1. they are equal, or both are the same name;
/// 2. the right is top;
/// 3. the left is a conjunction, and its first (0) or second (1) member is subsumed by the right;
/// 4. the right is a conjunction, and the left is subsumed by both members;
/// 5. both are existentials, by one role or the left one by a narrower role, and inner is subsumed by inner;
/// 6. the left is subsumed by the left of an inclusion (its place), and its right by the right;
/// 7. the left is a variable, and an atom chosen for it (its id) is subsumed by the right;
/// 8. the right is a variable, and the left is subsumed by each atom chosen for it.
///
/// The number more is what stands in brackets, else 0.
pub type Derivation = Vec<[u16; 4]>;

/// Rows of four out of a list whose length is a multiple of it.
pub(crate) fn fours(numbers: &[u16]) -> Vec<[u16; 4]> {
    numbers.chunks_exact(4).map(|row| [row[0], row[1], row[2], row[3]]).collect()
}

impl Tables<'_> {
    /// A derivation of a pair: lines that [`Tables::check_derivation`] accepts, no pair twice, the asked one
    /// last. Refusal 11 says that the pair is not subsumed.
    ///
    /// ```
    /// # use hermitcasket::Tables;
    /// let tables = Tables { concepts: &[1, 7, 0, 1, 8, 0], inclusions: &[0, 1], ..Tables::default() };
    /// let lines = tables.derivation(&[], 0, 1)?;
    /// assert_eq!(lines.last(), Some(&[6, 0, 1, 0])); // by inclusion 0
    /// assert!(tables.check_derivation(&[], 0, 1, &lines).is_ok());
    /// assert_eq!(tables.derivation(&[], 1, 0).unwrap_err().number(), 11);
    /// # Ok::<(), hermitcasket::Refusal>(())
    /// ```
    pub fn derivation(&self, assignment: &[u64], left: u16, right: u16) -> Result<Derivation> {
        let mut out = vec![0; limits::line_room(self.concept_count().min(limits::CONCEPTS))];
        let answer = raw::derive(*self, assignment, (left, right), &mut out);
        let lines = self.value(answer, Asked::Ids)?;
        Ok(fours(&out[..4 * lines as usize]))
    }

    /// Checks a derivation: it is accepted exactly when each line follows by its rule from lines before it,
    /// and the last one is the asked pair.
    ///
    /// ```
    /// # use hermitcasket::Tables;
    /// let tables = Tables { concepts: &[1, 7, 0, 0, 0, 0], ..Tables::default() };
    /// assert!(tables.check_derivation(&[], 0, 1, &[[2, 0, 1, 0]]).is_ok()); // everything is below top
    /// let refusal = tables.check_derivation(&[], 1, 0, &[[2, 1, 0, 0]]).unwrap_err();
    /// assert_eq!(refusal.to_string(), "refusal 12: line 0 does not follow by its rule");
    /// ```
    pub fn check_derivation(
        &self,
        assignment: &[u64],
        left: u16,
        right: u16,
        lines: &[[u16; 4]],
    ) -> Result<()> {
        let answer = raw::check_derivation(*self, assignment, (left, right), &lines.concat());
        let beside = Beside { asked: Asked::Ids, length: lines.len(), ..Beside::default() };
        self.value_beside(answer, beside).map(drop)
    }
}
