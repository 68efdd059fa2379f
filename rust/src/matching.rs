//! Finding assignments: of all questions, within settings, on an allowance, of one group, of several tables.

use crate::raw::{self, Answer};
use crate::refusal::{Asked, Beside};
use crate::{limits, Refusal, Result, Tables};

/// An assignment (filling): one number a variable, in which bit k chooses the atom at place k of
/// [`Tables::atoms`]. No bit reads as top.
pub type Assignment = Vec<u64>;

/// What each variable may take, one number a variable in each list.
#[derive(Clone, Debug, Default, PartialEq, Eq)]
pub struct Settings {
    /// The permitted atoms, in the bits of a choice.
    pub permitted: Vec<u64>,
    /// The largest number of them, 0 to 64.
    pub largest: Vec<u16>,
}

/// What a finder gives that counts its decisions.
#[derive(Clone, Debug, PartialEq, Eq)]
pub enum Counted {
    /// The first assignment, which took so many decisions.
    Found { assignment: Assignment, count: u32 },
    /// There is none, which took so many decisions.
    None { count: u32 },
    /// It takes more decisions than it was allowed.
    Spent { allowance: u32 },
}

/// What several question tables were answered.
#[derive(Clone, Debug, PartialEq, Eq)]
pub struct Batch {
    /// One answer a table. Places in a refusal are those of the table by itself.
    pub answers: Vec<Result<Counted>>,
    /// What is left of the shares.
    pub left: u64,
}

impl Counted {
    fn of(answer: Answer, assignment: &[u64]) -> Option<Counted> {
        let count = answer.value as u32;
        match answer.number {
            0 => Some(Counted::Found { assignment: assignment.to_vec(), count }),
            10 => Some(Counted::None { count }),
            14 => Some(Counted::Spent { allowance: count }),
            _ => None,
        }
    }
}

impl Tables<'_> {
    /// The first assignment, in the order of assignments, that makes every question hold; or `None`, exactly
    /// when no substitution of concepts of any size, names and roles for the variables does. In that order, where
    /// two assignments first differ (variable 0 first, bits rising), the one that leaves the atom out is earlier.
    ///
    /// ```
    /// # use hermitcasket::Tables;
    /// let tables = Tables {
    ///     concepts: &[1, 7, 0, 1, 8, 0, 4, 0, 0],
    ///     inclusions: &[0, 1],
    ///     questions: &[2, 1],
    ///     variables: 1,
    ///     ..Tables::default()
    /// };
    /// assert_eq!(tables.find_assignment()?, Some(vec![0b10]));
    /// let impossible = Tables { questions: &[2, 1, 1, 2, 2, 0], ..tables };
    /// assert_eq!(impossible.find_assignment()?, None);
    /// # Ok::<(), hermitcasket::Refusal>(())
    /// ```
    pub fn find_assignment(&self) -> Result<Option<Assignment>> {
        let mut out = self.room();
        let answer = raw::find(*self, &mut out);
        self.found(answer, out, Asked::Nothing)
    }

    /// The first one within settings that makes every question hold, or `None` where none within them does.
    ///
    /// ```
    /// # use hermitcasket::Tables;
    /// # let tables = Tables {
    /// #     concepts: &[1, 7, 0, 1, 8, 0, 4, 0, 0],
    /// #     inclusions: &[0, 1],
    /// #     questions: &[2, 1],
    /// #     variables: 1,
    /// #     ..Tables::default()
    /// # };
    /// let mut settings = tables.unrestricted()?;
    /// settings.permitted[0] = 0b01; // the atom at place 1 is barred
    /// assert_eq!(tables.find_within(&settings)?, Some(vec![0b01]));
    /// settings.largest[0] = 0;
    /// assert_eq!(tables.find_within(&settings)?, None);
    /// # Ok::<(), hermitcasket::Refusal>(())
    /// ```
    pub fn find_within(&self, settings: &Settings) -> Result<Option<Assignment>> {
        let mut out = self.room();
        let answer = raw::find_within(*self, &settings.permitted, &settings.largest, &mut out);
        self.found(answer, out, Asked::Nothing)
    }

    /// The same on an allowance of decisions. Pairs of a variable and an atom are settled one by one in the order
    /// of assignments, and a decision is a partial choice with which all questions can still hold. The count belongs
    /// to the tables and settings, not to the machine; a larger allowance alters no `Found` and no `None`.
    ///
    /// ```
    /// # use hermitcasket::{Counted, Tables};
    /// # let tables = Tables {
    /// #     concepts: &[1, 7, 0, 1, 8, 0, 4, 0, 0],
    /// #     inclusions: &[0, 1],
    /// #     questions: &[2, 1],
    /// #     variables: 1,
    /// #     ..Tables::default()
    /// # };
    /// let settings = tables.unrestricted()?;
    /// let found = Counted::Found { assignment: vec![0b10], count: 3 };
    /// assert_eq!(tables.find_counted(&settings, 1000)?, found);
    /// assert_eq!(tables.find_counted(&settings, 2)?, Counted::Spent { allowance: 2 });
    /// # Ok::<(), hermitcasket::Refusal>(())
    /// ```
    pub fn find_counted(&self, settings: &Settings, allowance: u32) -> Result<Counted> {
        let mut out = self.room();
        let Settings { permitted, largest } = settings;
        let answer = raw::find_counted(*self, permitted, largest, allowance, &mut out);
        Counted::of(answer, &out).ok_or_else(|| self.refusal(answer, Beside::default()))
    }

    /// The first one within settings of a question's group: of the questions that share a variable with it,
    /// directly or through others; those without variables are one group more. The other variables are 0.
    ///
    /// ```
    /// # use hermitcasket::Tables;
    /// let tables = Tables {
    ///     concepts: &[1, 7, 0, 4, 0, 0, 4, 1, 0],
    ///     questions: &[1, 0, 2, 0],
    ///     variables: 2,
    ///     ..Tables::default()
    /// };
    /// let settings = tables.unrestricted()?;
    /// assert_eq!(tables.find_group(&settings, 0)?, Some(vec![1, 0]));
    /// assert_eq!(tables.find_group(&settings, 1)?, Some(vec![0, 1]));
    /// # Ok::<(), hermitcasket::Refusal>(())
    /// ```
    pub fn find_group(&self, settings: &Settings, question: u16) -> Result<Option<Assignment>> {
        let mut out = self.room();
        let Settings { permitted, largest } = settings;
        let answer = raw::find_group(*self, permitted, largest, question, &mut out);
        self.found(answer, out, Asked::Question)
    }

    /// Up to eight question tables, which lie one after another in `questions`, of so many numbers each. Each
    /// has its share of decisions and what those before it left over. Every atom is permitted, and 64 of them.
    ///
    /// ```
    /// # use hermitcasket::{Counted, Tables};
    /// let two = Tables {
    ///     concepts: &[1, 7, 0, 4, 0, 0],
    ///     questions: &[1, 0, 0, 1],
    ///     variables: 1,
    ///     ..Tables::default()
    /// };
    /// let batch = two.find_batch(&[2, 2], &[10, 10])?;
    /// assert_eq!(batch.answers[0], Ok(Counted::Found { assignment: vec![1], count: 2 }));
    /// assert_eq!(batch.answers[1], Ok(Counted::Found { assignment: vec![0], count: 1 }));
    /// assert_eq!(batch.left, 17);
    /// # Ok::<(), hermitcasket::Refusal>(())
    /// ```
    pub fn find_batch(&self, lengths: &[u16], shares: &[u32]) -> Result<Batch> {
        let width = self.room().len();
        let mut out = vec![0; lengths.len().min(limits::BATCH) * width];
        let cards = raw::find_batch(*self, lengths, shares, &mut out);
        if cards.number != 0 {
            return Err(Refusal::of_tables(cards.number, cards.place));
        }
        let mut rest = self.questions;
        let mut answers = Vec::with_capacity(lengths.len());
        for (k, &length) in lengths.iter().enumerate() {
            let (questions, behind) = rest.split_at(usize::from(length));
            let table = Tables { questions, ..*self };
            let counted = Counted::of(cards.answer(k), &out[k * width..(k + 1) * width]);
            answers.push(counted.ok_or_else(|| table.refusal(cards.answer(k), Beside::default())));
            rest = behind;
        }
        Ok(Batch { answers, left: cards.left })
    }

    /// Settings that permit every atom and 64 of them: within these every assignment is.
    pub fn unrestricted(&self) -> Result<Settings> {
        let all = match self.atoms()?.len() {
            0 => 0,
            atoms => u64::MAX >> (64 - atoms),
        };
        let variables = usize::from(self.variables);
        Ok(Settings { permitted: vec![all; variables], largest: vec![64; variables] })
    }

    /// The ids that an assignment chooses for a variable, rising.
    ///
    /// ```
    /// # use hermitcasket::Tables;
    /// let tables = Tables {
    ///     concepts: &[1, 7, 0, 1, 8, 0, 4, 0, 0],
    ///     inclusions: &[0, 1],
    ///     variables: 1,
    ///     ..Tables::default()
    /// };
    /// assert_eq!(tables.chosen(&[0b10], 0)?, [1]);
    /// # Ok::<(), hermitcasket::Refusal>(())
    /// ```
    pub fn chosen(&self, assignment: &[u64], variable: u16) -> Result<Vec<u16>> {
        let mut ids = vec![0; limits::ATOM_ROOM];
        let answer = raw::chosen(*self, assignment, variable, &mut ids);
        let count = self.value(answer, Asked::Variable)?;
        ids.truncate(count as usize);
        Ok(ids)
    }

    /// Room for one number a variable; tables with over eight are refused before they are written.
    fn room(&self) -> Assignment {
        vec![0; usize::from(self.variables).min(limits::VARIABLES)]
    }

    fn found(&self, answer: Answer, out: Assignment, asked: Asked) -> Result<Option<Assignment>> {
        match answer.number {
            10 => Ok(None),
            _ => self.value(answer, asked).map(|_| Some(out)),
        }
    }
}
