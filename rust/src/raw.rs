//! The library's functions as they are: lent slices in, numbers out, no heap. Everything `unsafe` of this
//! crate stands in this file.
//!
//! An answer has a number and a place: number 0 is done, any other is the refusal, and then no buffer was
//! written. include/hermitcasket.h says what each function does. The operations of [`crate::Tables`] are
//! made of these; whoever wants to lend buffers of their own calls them directly:
//!
//! ```
//! use hermitcasket::{raw, Tables};
//!
//! let tables = Tables { concepts: &[1, 7, 0, 1, 8, 0], inclusions: &[0, 1], ..Tables::default() };
//! let mut ids = [0; 64];
//! assert_eq!(raw::atoms(tables, &mut ids), raw::Answer::done(2));
//! assert_eq!(ids[..2], [0, 1]);
//! assert_eq!(raw::atoms(tables, &mut ids[..63]), raw::Answer::refused(8, 64));
//! ```

use crate::Tables;

/// `hc_answer`: number 0 is done, any other is the refusal's number.
#[repr(C)]
#[derive(Clone, Copy, Debug, PartialEq, Eq)]
pub struct Answer {
    pub number: u16,
    pub place: u64,
    pub value: u64,
}

impl Answer {
    pub fn done(value: u64) -> Self {
        Answer { number: 0, place: 0, value }
    }

    pub fn refused(number: u16, place: u64) -> Self {
        Answer { number, place, value: 0 }
    }
}

/// `hc_catalogue`: number 0 is done, with how many concepts and inclusions were read.
#[repr(C)]
#[derive(Clone, Copy, Debug, PartialEq, Eq)]
pub struct Catalogue {
    pub number: u16,
    pub place: u64,
    pub concepts: u64,
    pub inclusions: u64,
}

impl Catalogue {
    pub fn done(concepts: u64, inclusions: u64) -> Self {
        Catalogue { number: 0, place: 0, concepts, inclusions }
    }

    pub fn refused(number: u16, place: u64) -> Self {
        Catalogue { number, place, concepts: 0, inclusions: 0 }
    }
}

/// `hc_cards`: number and place of the whole, what is left over, and for each table its own.
#[repr(C)]
#[derive(Clone, Copy, Debug, Default, PartialEq, Eq)]
pub struct Cards {
    pub number: u16,
    pub place: u64,
    pub left: u64,
    pub numbers: [u16; 8],
    pub places: [u64; 8],
    pub counts: [u32; 8],
}

impl Cards {
    pub fn refused(number: u16, place: u64) -> Self {
        Cards { number, place, ..Cards::default() }
    }

    /// What table k is told, as the finder with an allowance tells it.
    pub fn answer(&self, k: usize) -> Answer {
        let value = u64::from(self.counts[k]);
        Answer { number: self.numbers[k], place: self.places[k], value }
    }
}

/// Functions of include/hermitcasket.h that begin with the tables.
macro_rules! with_tables {
    ($(fn $name:ident($($argument:ident: $type:ty),*) -> $answer:ty;)*) => {
        extern "C" {
            $(fn $name(
                concepts: *const u16,
                concepts_len: usize,
                inclusions: *const u16,
                inclusions_len: usize,
                questions: *const u16,
                questions_len: usize,
                roles: *const u16,
                roles_len: usize,
                variables: u16,
                $($argument: $type),*
            ) -> $answer;)*
        }
    };
}

with_tables! {
    fn hc_check() -> Answer;
    fn hc_atoms(out: *mut u16, len: usize) -> Answer;
    fn hc_blanks(id: u16) -> Answer;
    fn hc_subsumption_table(choices: *const u64, count: usize, out: *mut u8, len: usize) -> Answer;
    fn hc_subsumed(choices: *const u64, count: usize, left: u16, right: u16) -> Answer;
    fn hc_match(out: *mut u64, len: usize) -> Answer;
    fn hc_match_within(
        permitted: *const u64, permitted_len: usize, largest: *const u16, largest_len: usize,
        out: *mut u64, len: usize
    ) -> Answer;
    fn hc_match_counted(
        permitted: *const u64, permitted_len: usize, largest: *const u16, largest_len: usize,
        allowance: u32, out: *mut u64, len: usize
    ) -> Answer;
    fn hc_match_group(
        permitted: *const u64, permitted_len: usize, largest: *const u16, largest_len: usize,
        question: u16, out: *mut u64, len: usize
    ) -> Answer;
    fn hc_match_cards(
        lengths: *const u16, lengths_len: usize, shares: *const u32, shares_len: usize,
        out: *mut u64, len: usize
    ) -> Cards;
    fn hc_chosen(choices: *const u64, count: usize, variable: u16, out: *mut u16, len: usize) -> Answer;
    fn hc_derive(
        choices: *const u64, count: usize, left: u16, right: u16, out: *mut u16, len: usize
    ) -> Answer;
    fn hc_check_derivation(
        choices: *const u64, count: usize, left: u16, right: u16, lines: *const u16, len: usize
    ) -> Answer;
    fn hc_show(
        choices: *const u64, count: usize, left: u16, right: u16, rows: *mut u16, len: usize
    ) -> Answer;
    fn hc_belongs(
        choices: *const u64, count: usize, size: u16, rows: *const u16, len: usize,
        concept: u16, element: u16
    ) -> Answer;
    fn hc_update_table(told: *const u16, count: usize, table: *mut u8, len: usize) -> Answer;
    fn hc_renumber(
        order: *const u16, count: usize, concepts_out: *mut u16, concepts_out_len: usize,
        inclusions_out: *mut u16, inclusions_out_len: usize,
        questions_out: *mut u16, questions_out_len: usize
    ) -> Answer;
}

extern "C" {
    fn hc_read_owl(
        text: *const u8,
        len: usize,
        concepts: *mut u16,
        concepts_len: usize,
        inclusions: *mut u16,
        inclusions_len: usize,
    ) -> Catalogue;
}

/// Calls an export with the tables and what follows them, each slice as where it starts and its length.
macro_rules! call {
    ($export:ident, $tables:expr $(, $argument:expr)*) => {{
        let t: Tables = $tables;
        // SAFETY: what the header asks of a caller is so. Each pointer comes from a slice and stands beside
        // that slice's length; the slices are borrowed until the call returns, and what is written to is
        // borrowed mutably, so it overlaps nothing and no other thread looks at it. The library reads and
        // writes within the lengths only, keeps no pointer and has no state, and as its contracts have no
        // `requires`, any numbers may be lent. Where the stack is too short the program ends, as it does
        // in Rust: large frames are touched page by page, so the guard page is met (tests/stack.rs). The
        // declaration is the header's: tests/tests/interface.rs compares the two.
        unsafe {
            $export(
                t.concepts.as_ptr(),
                t.concepts.len(),
                t.inclusions.as_ptr(),
                t.inclusions.len(),
                t.questions.as_ptr(),
                t.questions.len(),
                t.roles.as_ptr(),
                t.roles.len(),
                t.variables,
                $($argument),*
            )
        }
    }};
}

/// Checks the tables.
pub fn check(t: Tables) -> Answer {
    call!(hc_check, t)
}

/// Lists the atoms' ids; value: how many.
pub fn atoms(t: Tables, out: &mut [u16]) -> Answer {
    call!(hc_atoms, t, out.as_mut_ptr(), out.len())
}

/// The set of the variables in a concept.
pub fn blanks(t: Tables, id: u16) -> Answer {
    call!(hc_blanks, t, id)
}

/// Writes the subsumption table; value: the number of marks.
pub fn subsumption_table(t: Tables, assignment: &[u64], out: &mut [u8]) -> Answer {
    let (from, count) = (assignment.as_ptr(), assignment.len());
    call!(hc_subsumption_table, t, from, count, out.as_mut_ptr(), out.len())
}

/// Whether the left of the pair is below its right; value: 1 or 0.
pub fn subsumed(t: Tables, assignment: &[u64], pair: (u16, u16)) -> Answer {
    call!(hc_subsumed, t, assignment.as_ptr(), assignment.len(), pair.0, pair.1)
}

/// The first assignment that makes every question hold.
pub fn find(t: Tables, out: &mut [u64]) -> Answer {
    call!(hc_match, t, out.as_mut_ptr(), out.len())
}

/// The first one that takes permitted atoms only, and no more of them than the largest count, for each
/// variable.
pub fn find_within(t: Tables, permitted: &[u64], largest: &[u16], out: &mut [u64]) -> Answer {
    call!(
        hc_match_within,
        t,
        permitted.as_ptr(),
        permitted.len(),
        largest.as_ptr(),
        largest.len(),
        out.as_mut_ptr(),
        out.len()
    )
}

/// The same on an allowance of decisions; the value is their count.
pub fn find_counted(
    t: Tables,
    permitted: &[u64],
    largest: &[u16],
    allowance: u32,
    out: &mut [u64],
) -> Answer {
    call!(
        hc_match_counted,
        t,
        permitted.as_ptr(),
        permitted.len(),
        largest.as_ptr(),
        largest.len(),
        allowance,
        out.as_mut_ptr(),
        out.len()
    )
}

/// The first one within the settings that solves the questions of one's group.
pub fn find_group(
    t: Tables,
    permitted: &[u64],
    largest: &[u16],
    question: u16,
    out: &mut [u64],
) -> Answer {
    call!(
        hc_match_group,
        t,
        permitted.as_ptr(),
        permitted.len(),
        largest.as_ptr(),
        largest.len(),
        question,
        out.as_mut_ptr(),
        out.len()
    )
}

/// The finder with an allowance on several question tables, one after another.
pub fn find_batch(t: Tables, lengths: &[u16], shares: &[u32], out: &mut [u64]) -> Cards {
    call!(
        hc_match_cards,
        t,
        lengths.as_ptr(),
        lengths.len(),
        shares.as_ptr(),
        shares.len(),
        out.as_mut_ptr(),
        out.len()
    )
}

/// Lists one variable's chosen ids; value: how many.
pub fn chosen(t: Tables, assignment: &[u64], variable: u16, out: &mut [u16]) -> Answer {
    let (from, count) = (assignment.as_ptr(), assignment.len());
    call!(hc_chosen, t, from, count, variable, out.as_mut_ptr(), out.len())
}

/// Writes a derivation of the pair; value: how many lines.
pub fn derive(t: Tables, assignment: &[u64], pair: (u16, u16), out: &mut [u16]) -> Answer {
    let (from, count) = (assignment.as_ptr(), assignment.len());
    call!(hc_derive, t, from, count, pair.0, pair.1, out.as_mut_ptr(), out.len())
}

/// Checks a derivation of the pair.
pub fn check_derivation(t: Tables, assignment: &[u64], pair: (u16, u16), lines: &[u16]) -> Answer {
    let (from, count) = (assignment.as_ptr(), assignment.len());
    call!(hc_check_derivation, t, from, count, pair.0, pair.1, lines.as_ptr(), lines.len())
}

/// Writes rows of an interpretation where the pair fails; value: how many rows.
pub fn show(t: Tables, assignment: &[u64], pair: (u16, u16), rows: &mut [u16]) -> Answer {
    let (from, count) = (assignment.as_ptr(), assignment.len());
    call!(hc_show, t, from, count, pair.0, pair.1, rows.as_mut_ptr(), rows.len())
}

/// Whether an element of an interpretation of that size and with these rows is a member of a concept;
/// value: 1 or 0. `asked`: the concept and the element.
pub fn belongs(
    t: Tables,
    assignment: &[u64],
    (size, rows): (u16, &[u16]),
    asked: (u16, u16),
) -> Answer {
    let (from, count) = (assignment.as_ptr(), assignment.len());
    call!(hc_belongs, t, from, count, size, rows.as_ptr(), rows.len(), asked.0, asked.1)
}

/// Brings a held table up to date, with the assignment told as pairs of a variable and an id.
pub fn update_table(t: Tables, told: &[u16], table: &mut [u8]) -> Answer {
    call!(hc_update_table, t, told.as_ptr(), told.len(), table.as_mut_ptr(), table.len())
}

/// Writes the tables under new ids.
pub fn renumber(
    t: Tables,
    order: &[u16],
    concepts: &mut [u16],
    inclusions: &mut [u16],
    questions: &mut [u16],
) -> Answer {
    call!(
        hc_renumber,
        t,
        order.as_ptr(),
        order.len(),
        concepts.as_mut_ptr(),
        concepts.len(),
        inclusions.as_mut_ptr(),
        inclusions.len(),
        questions.as_mut_ptr(),
        questions.len()
    )
}

/// Reads a catalogue in OWL functional syntax.
pub fn read_owl(text: &[u8], concepts: &mut [u16], inclusions: &mut [u16]) -> Catalogue {
    // SAFETY: as in `call!`: pointers and lengths of slices that are borrowed until the call returns, the two
    // that are written to mutably; any bytes may be lent.
    unsafe {
        hc_read_owl(
            text.as_ptr(),
            text.len(),
            concepts.as_mut_ptr(),
            concepts.len(),
            inclusions.as_mut_ptr(),
            inclusions.len(),
        )
    }
}
