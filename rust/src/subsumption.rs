//! Which concepts are subsumed by which, under an assignment.

use crate::raw;
use crate::refusal::Asked;
use crate::{limits, Result, Tables};

/// Which concepts are subsumed by (below) which, under one assignment.
#[derive(Clone, Debug, PartialEq, Eq)]
pub struct SubsumptionTable {
    bytes: Vec<u8>,
}

impl SubsumptionTable {
    /// A table that was kept as its bytes. [`Tables::update_table`] takes any bytes.
    pub fn from_bytes(bytes: Vec<u8>) -> Self {
        SubsumptionTable { bytes }
    }

    /// 24 bytes a row: bit j mod 8 of byte j div 8 of row i says that i is subsumed by j.
    pub fn bytes(&self) -> &[u8] {
        &self.bytes
    }

    pub(crate) fn bytes_mut(&mut self) -> &mut [u8] {
        &mut self.bytes
    }

    /// Whether the left is marked as subsumed by the right; no past the table.
    pub fn is_subsumed(&self, left: u16, right: u16) -> bool {
        let (left, right) = (usize::from(left), usize::from(right));
        let byte = self.bytes.get(left * limits::ROW_BYTES + right / 8);
        right < limits::CONCEPTS && byte.map_or(false, |byte| byte >> (right % 8) & 1 == 1)
    }

    /// How many marks there are.
    pub fn marks(&self) -> u32 {
        self.bytes.iter().map(|byte| byte.count_ones()).sum()
    }
}

impl Tables<'_> {
    /// Whether the left is subsumed by (below) the right: whether in every finite interpretation that obeys
    /// inclusions and role pairs each element of the left is one of the right.
    ///
    /// ```
    /// # use hermitcasket::Tables;
    /// let tables = Tables { concepts: &[1, 7, 0, 1, 8, 0], inclusions: &[0, 1], ..Tables::default() };
    /// assert!(tables.is_subsumed(&[], 0, 1)?);
    /// assert!(!tables.is_subsumed(&[], 1, 0)?);
    /// # Ok::<(), hermitcasket::Refusal>(())
    /// ```
    pub fn is_subsumed(&self, assignment: &[u64], left: u16, right: u16) -> Result<bool> {
        let answer = raw::subsumed(*self, assignment, (left, right));
        self.value(answer, Asked::Ids).map(|value| value == 1)
    }

    /// The same of all pairs at once.
    ///
    /// ```
    /// # use hermitcasket::Tables;
    /// let tables = Tables { concepts: &[1, 7, 0, 1, 8, 0], inclusions: &[0, 1], ..Tables::default() };
    /// let table = tables.subsumption_table(&[])?;
    /// assert!(table.is_subsumed(0, 1) && !table.is_subsumed(1, 0));
    /// assert_eq!(table.marks(), 3);
    /// # Ok::<(), hermitcasket::Refusal>(())
    /// ```
    pub fn subsumption_table(&self, assignment: &[u64]) -> Result<SubsumptionTable> {
        let mut bytes = vec![0; self.concept_count().min(limits::CONCEPTS) * limits::ROW_BYTES];
        self.value(raw::subsumption_table(*self, assignment, &mut bytes), Asked::Nothing)?;
        Ok(SubsumptionTable { bytes })
    }
}
