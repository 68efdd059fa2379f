//! Tables under new ids.

use crate::raw;
use crate::refusal::Beside;
use crate::{OwnedTables, Result, Tables};

impl Tables<'_> {
    /// The tables under new ids: `order[i]` is that of concept i.
    ///
    /// ```
    /// # use hermitcasket::Tables;
    /// let tables = Tables { concepts: &[1, 7, 0, 1, 8, 0], inclusions: &[0, 1], ..Tables::default() };
    /// let turned = tables.renumber(&[1, 0])?;
    /// assert_eq!((&turned.concepts[..], &turned.inclusions[..]), (&[1, 8, 0, 1, 7, 0][..], &[1, 0][..]));
    /// assert_eq!(turned.lend().renumber(&[1, 0])?.lend(), tables);
    /// # Ok::<(), hermitcasket::Refusal>(())
    /// ```
    pub fn renumber(&self, order: &[u16]) -> Result<OwnedTables> {
        let mut concepts = vec![0; self.concepts.len()];
        let mut inclusions = vec![0; self.inclusions.len()];
        let mut questions = vec![0; self.questions.len()];
        let answer = raw::renumber(*self, order, &mut concepts, &mut inclusions, &mut questions);
        self.value_beside(answer, Beside { length: order.len(), ..Beside::default() })?;
        let (roles, variables) = (self.roles.to_vec(), self.variables);
        Ok(OwnedTables { concepts, inclusions, questions, roles, variables })
    }
}
