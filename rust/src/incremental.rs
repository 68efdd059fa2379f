//! Keeping a subsumption table while inclusions are added.

use crate::raw;
use crate::refusal::{Asked, Beside};
use crate::{Result, SubsumptionTable, Tables};

impl Tables<'_> {
    /// Brings a held table up to date after inclusions were added; these are the tables as they are now. The
    /// assignment is told as pairs of a variable and the id of an atom chosen for it, since positions may
    /// have moved. A table that was right is then the one made afresh; any other is closed under the rules,
    /// and keeps its marks. After a refusal it is as it was.
    ///
    /// ```
    /// # use hermitcasket::Tables;
    /// let before = Tables { concepts: &[1, 7, 0, 1, 8, 0], ..Tables::default() };
    /// let after = Tables { inclusions: &[0, 1], ..before };
    /// let mut table = before.subsumption_table(&[])?;
    /// after.update_table(&[], &mut table)?;
    /// assert_eq!(table, after.subsumption_table(&[])?);
    /// # Ok::<(), hermitcasket::Refusal>(())
    /// ```
    pub fn update_table(&self, told: &[[u16; 2]], held: &mut SubsumptionTable) -> Result<()> {
        let answer = raw::update_table(*self, &told.concat(), held.bytes_mut());
        let beside = Beside { asked: Asked::Told, ..Beside::default() };
        self.value_beside(answer, beside).map(drop)
    }
}
