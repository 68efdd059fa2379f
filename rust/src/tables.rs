//! The tables of a problem, and what is asked of them alone: their check, their atoms, a concept's variables.

use crate::raw::{self, Answer};
use crate::refusal::{Asked, Beside};
use crate::{limits, Refusal, Result};

/// The tables of a problem, lent. Any numbers may stand in them: every operation judges them first.
#[derive(Clone, Copy, Debug, Default, PartialEq, Eq)]
pub struct Tables<'a> {
    /// Three numbers a concept (entry); its id is its place. (0, 0, 0) is top; (1, name, 0) a name;
    /// (2, role, id) "some"; (3, id, id) "and"; (4, variable, 0) a variable (blank). Inner ids are smaller.
    pub concepts: &'a [u16],
    /// Two ids an inclusion: the left is subsumed by the right. They hold no variable.
    pub inclusions: &'a [u16],
    /// Two ids a question. It holds variables on one side at most.
    pub questions: &'a [u16],
    /// Two roles a pair: every link of the first, the narrow one, counts as one of the second, the wide one.
    pub roles: &'a [u16],
    /// How many variables there are.
    pub variables: u16,
}

/// Tables that are owned, as an operation gives them.
#[derive(Clone, Debug, Default, PartialEq, Eq)]
pub struct OwnedTables {
    /// See [`Tables::concepts`]; the other fields likewise.
    pub concepts: Vec<u16>,
    pub inclusions: Vec<u16>,
    pub questions: Vec<u16>,
    pub roles: Vec<u16>,
    pub variables: u16,
}

impl OwnedTables {
    /// The tables, lent.
    pub fn lend(&self) -> Tables<'_> {
        Tables {
            concepts: &self.concepts,
            inclusions: &self.inclusions,
            questions: &self.questions,
            roles: &self.roles,
            variables: self.variables,
        }
    }
}

impl Tables<'_> {
    /// Checks the tables. Every other operation checks them too.
    ///
    /// ```
    /// use hermitcasket::Tables;
    ///
    /// assert!(Tables::default().check().is_ok());
    /// let refusal = Tables { questions: &[0, 0], ..Tables::default() }.check().unwrap_err();
    /// assert_eq!((refusal.number(), refusal.place), (4, 0)); // there is no concept 0
    /// ```
    pub fn check(&self) -> Result<()> {
        self.value(raw::check(*self), Asked::Nothing).map(drop)
    }

    /// The ids of the atoms (parts), rising: the names and existentials that stand, at any depth, in an inclusion
    /// or in a right side of a question without variables; of those that are built alike the lowest. The bits of a
    /// choice stand for the places in this list.
    ///
    /// ```
    /// # use hermitcasket::Tables;
    /// let tables = Tables { concepts: &[1, 7, 0, 1, 8, 0, 1, 9, 0], inclusions: &[0, 2], ..Tables::default() };
    /// assert_eq!(tables.atoms()?, [0, 2]);
    /// # Ok::<(), hermitcasket::Refusal>(())
    /// ```
    pub fn atoms(&self) -> Result<Vec<u16>> {
        let mut ids = vec![0; limits::ATOM_ROOM];
        let count = self.value(raw::atoms(*self, &mut ids), Asked::Nothing)?;
        ids.truncate(count as usize);
        Ok(ids)
    }

    /// The variables in a concept, at any depth: bit k for variable k.
    ///
    /// ```
    /// # use hermitcasket::Tables;
    /// let tables = Tables { concepts: &[4, 2, 0, 2, 1, 0, 4, 0, 0, 3, 1, 2], variables: 3, ..Tables::default() };
    /// assert_eq!(tables.variables_in(3)?, 0b101);
    /// # Ok::<(), hermitcasket::Refusal>(())
    /// ```
    pub fn variables_in(&self, id: u16) -> Result<u8> {
        self.value(raw::blanks(*self, id), Asked::Ids).map(|set| set as u8)
    }

    pub(crate) fn concept_count(&self) -> usize {
        self.concepts.len() / 3
    }

    /// The value of an answer that is done.
    pub(crate) fn value(&self, answer: Answer, asked: Asked) -> Result<u64> {
        self.value_beside(answer, Beside { asked, ..Beside::default() })
    }

    /// The same, where lists were lent too.
    pub(crate) fn value_beside(&self, answer: Answer, beside: Beside) -> Result<u64> {
        match answer.number {
            0 => Ok(answer.value),
            _ => Err(self.refusal(answer, beside)),
        }
    }

    /// The refusal in words. A number may be said of the tables or of what was lent beside them: it is of the
    /// tables exactly when they are refused with it by themselves.
    pub(crate) fn refusal(&self, answer: Answer, beside: Beside) -> Refusal {
        let Answer { number, place, .. } = answer;
        let alone = raw::check(*self);
        if (alone.number, alone.place) == (number, place) {
            return Refusal::of_tables(number, place);
        }
        Refusal::new(number, place, Beside { variables: self.variables, ..beside })
    }
}
