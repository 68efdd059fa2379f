//! Refusals: a row of the refusal table, a place, and a sentence that says what is wrong there.

use std::fmt;

use crate::limits;

/// Why the library did not do its work. Nothing was written.
///
/// ```
/// use hermitcasket::{Reason, Tables};
///
/// let refusal = Tables { concepts: &[1, 1000, 0], ..Tables::default() }.check().unwrap_err();
/// assert_eq!((refusal.number(), refusal.place), (2, 0));
/// assert_eq!(refusal.reason, Reason::Malformed);
/// assert_eq!(
///     refusal.to_string(),
///     "refusal 2: concept 0 is of no kind, a number of it is out of range, or one that is not used is not 0"
/// );
/// ```
#[derive(Clone, Copy, PartialEq, Eq)]
pub struct Refusal {
    pub reason: Reason,
    /// Where: of what it is a number, the sentence says.
    pub place: u64,
    /// The sentence; `{}` stands for the place.
    words: &'static str,
}

/// The rows of the refusal table, in the order of their numbers from 1 on.
#[derive(Clone, Copy, Debug, PartialEq, Eq)]
#[repr(u16)]
pub enum Reason {
    /// 1: over a limit, or a ragged table.
    Limit = 1,
    /// 2: a row that is none.
    Malformed,
    /// 3: an inner id that is not smaller.
    ForwardId,
    /// 4: an id that is no concept.
    NoConcept,
    /// 5: a variable in an inclusion.
    VariableInInclusion,
    /// 6: variables on both sides of a question.
    VariablesOnBothSides,
    /// 7: over 64 atoms.
    TooManyAtoms,
    /// 8: an output buffer that is too short.
    BufferTooShort,
    /// 9: an assignment that does not fit the tables.
    BadAssignment,
    /// 10: no assignment makes the questions hold.
    NoAssignment,
    /// 11: no derivation, since the pair is not subsumed.
    NotSubsumed,
    /// 12: no right derivation of the pair.
    BadDerivation,
    /// 13: a text off the layout of house text; the program's alone.
    BadText,
    /// 14: the allowance of decisions is spent.
    AllowanceSpent,
    /// 15: no countermodel, since the pair is subsumed.
    NoCountermodel,
    /// 16: a role over 99 in a role pair.
    BadRole,
    /// 17: not the syntax of catalogues.
    BadSyntax,
    /// 18: a class over 32 deep.
    TooDeep,
    /// 19: settings that do not fit the tables.
    BadSettings,
    /// 20: lengths or shares of a batch that do not fit.
    BadBatch,
    /// 21: no list of new ids.
    BadOrder,
    /// 22: new ids under which an inner id is not smaller.
    ForwardInOrder,
}

impl Reason {
    pub const ALL: [Reason; 22] = [
        Reason::Limit,
        Reason::Malformed,
        Reason::ForwardId,
        Reason::NoConcept,
        Reason::VariableInInclusion,
        Reason::VariablesOnBothSides,
        Reason::TooManyAtoms,
        Reason::BufferTooShort,
        Reason::BadAssignment,
        Reason::NoAssignment,
        Reason::NotSubsumed,
        Reason::BadDerivation,
        Reason::BadText,
        Reason::AllowanceSpent,
        Reason::NoCountermodel,
        Reason::BadRole,
        Reason::BadSyntax,
        Reason::TooDeep,
        Reason::BadSettings,
        Reason::BadBatch,
        Reason::BadOrder,
        Reason::ForwardInOrder,
    ];

    /// The number in the refusal table.
    pub fn number(self) -> u16 {
        self as u16
    }
}

/// What was lent beside the tables, so that a sentence can tell faults apart that share a number.
#[derive(Clone, Copy, Default)]
pub(crate) struct Beside {
    pub asked: Asked,
    /// How many variables there are: with 9 and 19 this place says that there are more or fewer numbers.
    pub variables: u16,
    /// Length of a list or text: with 12, 17 and 21 this place is its end.
    pub length: usize,
}

#[derive(Clone, Copy, Default, PartialEq, Eq)]
pub(crate) enum Asked {
    #[default]
    Nothing,
    Ids,
    Question,
    Variable,
    Member,
    Told,
    Catalogue,
}

impl Refusal {
    /// By the number that the library gives, 1 to 22, of the tables themselves.
    pub(crate) fn of_tables(number: u16, place: u64) -> Self {
        Refusal::new(number, place, Beside::default())
    }

    /// By the number that the library gives, 1 to 22, of what was lent beside accepted tables.
    pub(crate) fn new(number: u16, place: u64, beside: Beside) -> Self {
        let reason = Reason::ALL[usize::from(number) - 1];
        Refusal { reason, place, words: words(reason, place, beside) }
    }

    /// The number in the refusal table.
    pub fn number(&self) -> u16 {
        self.reason.number()
    }
}

fn words(reason: Reason, place: u64, beside: Beside) -> &'static str {
    match reason {
        Reason::Limit => over_limit(place, beside.asked),
        Reason::Malformed => malformed(beside.asked),
        Reason::ForwardId => "concept {} has an inner id that is not smaller than its own",
        Reason::NoConcept => no_concept(place, beside.asked),
        Reason::VariableInInclusion => "inclusion {} holds a variable",
        Reason::VariablesOnBothSides => "question {} holds variables on both sides",
        Reason::TooManyAtoms => "there are more than {} atoms",
        // in this crate only a held table can be
        Reason::BufferTooShort => "the held table is too short: it must have {} bytes",
        Reason::BadAssignment => bad_assignment(place, beside),
        Reason::NoAssignment => "no assignment makes the questions hold",
        Reason::NotSubsumed => "the pair is not subsumed, so there is no derivation of it",
        Reason::BadDerivation => bad_derivation(place, beside.length),
        Reason::BadText => "the line at byte {} is off the layout",
        Reason::AllowanceSpent => "the allowance of decisions is spent",
        Reason::NoCountermodel => "the pair is subsumed, so there is no countermodel",
        Reason::BadRole => "role pair {} has a role over 99",
        Reason::BadSyntax => bad_syntax(place, beside.length),
        Reason::TooDeep => "the class at byte {} begins over 32 deep",
        Reason::BadSettings if place == u64::from(beside.variables) => {
            "each list of settings must have a number for each variable, {} in all"
        }
        Reason::BadSettings => "variable {} is permitted a bit past the atoms, or over 64 of them",
        Reason::BadBatch if place == 8 => {
            "over {} tables, another number of shares, or lengths that do not add up"
        }
        Reason::BadBatch => "the share of table {} is over 1000000",
        Reason::BadOrder if place == beside.length as u64 => "the list of new ids ends after {}",
        Reason::BadOrder => "number {} of the list is no id, or stood before",
        Reason::ForwardInOrder => {
            "concept {} would have an inner id that is not smaller than its own"
        }
    }
}

fn malformed(asked: Asked) -> &'static str {
    match asked {
        Asked::Member => "row {} of the interpretation is of no kind, or has an element that is none",
        Asked::Variable => "the asked variable is none",
        _ => "concept {} is of no kind, a number of it is out of range, or one that is not used is not 0",
    }
}

fn no_concept(place: u64, asked: Asked) -> &'static str {
    match asked {
        Asked::Member if place == 1 => "the asked element is none",
        Asked::Question => "the asked question is none",
        Asked::Nothing => {
            "pair {} has an id that is no concept, inclusions and then questions counted through"
        }
        _ => "an asked id is no concept",
    }
}

fn bad_assignment(place: u64, beside: Beside) -> &'static str {
    if beside.asked == Asked::Told {
        "told pair {} has a variable or an atom that is none"
    } else if place == u64::from(beside.variables) {
        "the assignment must have a number for each variable, {} in all"
    } else {
        "variable {} is assigned a bit past the atoms"
    }
}

fn bad_derivation(place: u64, lines: usize) -> &'static str {
    if lines == 0 {
        "the derivation has no lines"
    } else if place == lines as u64 {
        "the last line is another pair (lines: {})"
    } else {
        "line {} does not follow by its rule"
    }
}

fn bad_syntax(place: u64, bytes: usize) -> &'static str {
    if place == bytes as u64 {
        "the text ends at byte {}, too early"
    } else if bytes > limits::TEXT {
        "the text is over {} bytes long"
    } else {
        "what starts at byte {} is none of the syntax there"
    }
}

fn over_limit(place: u64, asked: Asked) -> &'static str {
    match (asked, place) {
        (Asked::Member, _) => {
            "the interpretation has no elements or over 192, or a row is cut short"
        }
        (Asked::Catalogue, _) => "the catalogue has over 192 concepts",
        (_, 0) => "over 192 concepts, or one is cut short",
        (_, 1) => "over 96 inclusions, or one is cut short",
        (_, 2) => "over 32 questions, or one is cut short",
        (_, 3) => "over 8 variables",
        _ => "over 32 role pairs, or one is cut short",
    }
}

impl fmt::Display for Refusal {
    fn fmt(&self, f: &mut fmt::Formatter<'_>) -> fmt::Result {
        let words = self.words.replace("{}", &self.place.to_string());
        write!(f, "refusal {}: {}", self.number(), words)
    }
}

/// The same, so that a program that ends with a refusal says what is wrong.
impl fmt::Debug for Refusal {
    fn fmt(&self, f: &mut fmt::Formatter<'_>) -> fmt::Result {
        fmt::Display::fmt(self, f)
    }
}

impl std::error::Error for Refusal {}
