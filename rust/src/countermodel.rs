//! Interpretations: where a pair fails, and what is a member of what.

use crate::derivations::fours;
use crate::raw;
use crate::refusal::Asked;
use crate::{Reason, Result, Tables};

/// A finite interpretation (stock).
#[derive(Clone, Debug, Default, PartialEq, Eq)]
pub struct Interpretation {
    /// How many elements (things) it has; they are counted from 0.
    pub size: u16,
    /// `[0, element, name, 0]`: the element bears the name. `[1, element, role, other]`: it is linked to the
    /// other by the role. In any order, with repeats.
    pub rows: Vec<[u16; 4]>,
}

impl Tables<'_> {
    /// An interpretation that obeys inclusions and role pairs and where the pair fails: element `left` is a
    /// member of the left concept and not of the right one. There is one element for each concept. Refusal 15
    /// says that the pair is subsumed.
    ///
    /// ```
    /// # use hermitcasket::Tables;
    /// let tables = Tables { concepts: &[1, 7, 0, 1, 8, 0], inclusions: &[0, 1], ..Tables::default() };
    /// let shown = tables.countermodel(&[], 1, 0)?;
    /// assert_eq!(shown.rows, [[0, 0, 7, 0], [0, 0, 8, 0], [0, 1, 8, 0]]);
    /// assert!(tables.is_member(&[], &shown, 1, 1)? && !tables.is_member(&[], &shown, 0, 1)?);
    /// assert_eq!(tables.countermodel(&[], 0, 1).unwrap_err().number(), 15);
    /// # Ok::<(), hermitcasket::Refusal>(())
    /// ```
    pub fn countermodel(
        &self,
        assignment: &[u64],
        left: u16,
        right: u16,
    ) -> Result<Interpretation> {
        let mut rows = Vec::new();
        let mut answer = raw::show(*self, assignment, (left, right), &mut rows);
        // without room it says how much is wanted
        if answer.number == Reason::BufferTooShort.number() {
            rows.resize(answer.place as usize, 0);
            answer = raw::show(*self, assignment, (left, right), &mut rows);
        }
        self.value(answer, Asked::Ids)?;
        Ok(Interpretation { size: self.concept_count() as u16, rows: fours(&rows) })
    }

    /// Whether an element of an interpretation is a member of (belongs to) a concept under an assignment. The
    /// interpretation need not obey anything.
    ///
    /// ```
    /// # use hermitcasket::{Interpretation, Tables};
    /// let tables = Tables { concepts: &[1, 7, 0, 2, 4, 0], ..Tables::default() };
    /// let pair = Interpretation { size: 2, rows: vec![[0, 1, 7, 0], [1, 0, 4, 1]] };
    /// assert!(tables.is_member(&[], &pair, 1, 0)?); // 0 is linked by role 4 to 1, which is named 7
    /// assert!(!tables.is_member(&[], &pair, 1, 1)?);
    /// # Ok::<(), hermitcasket::Refusal>(())
    /// ```
    pub fn is_member(
        &self,
        assignment: &[u64],
        interpretation: &Interpretation,
        concept: u16,
        element: u16,
    ) -> Result<bool> {
        let Interpretation { size, rows } = interpretation;
        let answer = raw::belongs(*self, assignment, (*size, &rows.concat()), (concept, element));
        self.value(answer, Asked::Member).map(|value| value == 1)
    }
}
