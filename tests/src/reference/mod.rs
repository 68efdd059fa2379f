//! The independent implementation, written from 01 and 02 alone: refusals as a list of checks, atoms as
//! a set of ids, subsumption by building a canonical interpretation and looking at its members,
//! matching by learning clauses from assignments that fail, of all questions or of a group, decisions counted
//! one by one, a held table
//! closed pair by pair, rows written to their new ids by the old ones, catalogues read by recursive
//! descent. It aims at being plainly right; most of it is slow.

pub mod atoms;
pub mod batches;
pub mod blanks;
pub mod clauses;
pub mod countermodel;
pub mod counting;
pub mod derivation;
pub mod groups;
pub mod incremental;
pub mod matching;
pub mod model;
pub mod owl;
pub mod patterns;
pub mod refusals;
pub mod renumbering;
pub mod roles;

use crate::layout;
use crate::limits::{line_room, ATOM_ROOM, CATALOGUE_ROOMS, MAX_TEXT, ROW_BYTES};
use crate::settings::Settings;
use crate::tables::{Case, Stock, Tables};

/// A refusal of 01's table.
#[derive(Clone, Copy, Debug, PartialEq, Eq)]
pub struct Refusal {
    pub number: u16,
    pub place: u64,
}

/// Operation: check the tables.
pub fn check(tables: &Tables) -> Result<(), Refusal> {
    refusals::of_tables(tables, None)
}

/// Operation: list the atoms into a buffer of `room` numbers.
pub fn atoms(tables: &Tables, room: usize) -> Result<Vec<u16>, Refusal> {
    refusals::of_tables(tables, None)?;
    refusals::of_room(room, ATOM_ROOM)?;
    Ok(atoms::list(tables).iter().map(|&id| id as u16).collect())
}

/// Operation: the set of blanks in one entry.
pub fn blanks(tables: &Tables, id: u16) -> Result<u8, Refusal> {
    refusals::of_tables(tables, Some((id, id)))?;
    Ok(blanks::set(tables, usize::from(id)))
}

/// A written subsumption table: its bytes, and how many pairs it says are below.
#[derive(Clone, Debug, Default, PartialEq, Eq)]
pub struct Table {
    pub rows: Vec<u8>,
    pub marks: u64,
}

/// Operation: the subsumption table, written to a buffer of `room` bytes.
pub fn subsumption_table(
    tables: &Tables,
    assignment: &[u64],
    room: usize,
) -> Result<Table, Refusal> {
    refusals::of_tables(tables, None)?;
    refusals::of_assignment(tables, assignment)?;
    refusals::of_room(room, tables.concept_count() * ROW_BYTES)?;
    let relation = relation(tables, assignment);
    Ok(Table { rows: rows(&relation), marks: marks(&relation) })
}

/// Operation: decide one pair.
pub fn subsumed(tables: &Tables, assignment: &[u64], pair: (u16, u16)) -> Result<bool, Refusal> {
    refusals::of_tables(tables, Some(pair))?;
    refusals::of_assignment(tables, assignment)?;
    let relation = relation(tables, assignment);
    Ok(relation[usize::from(pair.0)][usize::from(pair.1)])
}

/// Operation: find the first assignment that solves all questions.
pub fn find(tables: &Tables, room: usize) -> Result<Vec<u64>, Refusal> {
    refusals::of_tables(tables, None)?;
    refusals::of_room(room, usize::from(tables.variables))?;
    matching::first_solution(tables).ok_or(Refusal { number: 10, place: 0 })
}

/// Operation: find the first assignment within the settings that solves all questions.
pub fn find_within(tables: &Tables, settings: &Settings, room: usize) -> Result<Vec<u64>, Refusal> {
    refusals::of_tables(tables, None)?;
    refusals::of_settings(tables, settings)?;
    refusals::of_room(room, usize::from(tables.variables))?;
    let first = matching::first_solution_within(tables, settings);
    first.ok_or(Refusal { number: 10, place: 0 })
}

/// Operation: find the first assignment within the settings that solves the questions of one's group.
pub fn find_group(
    tables: &Tables,
    settings: &Settings,
    question: u16,
    room: usize,
) -> Result<Vec<u64>, Refusal> {
    refusals::of_tables_and_question(tables, question)?;
    refusals::of_settings(tables, settings)?;
    refusals::of_room(room, usize::from(tables.variables))?;
    let group = groups::of(tables, usize::from(question));
    let first = matching::first_solution_among(tables, settings, &group);
    first.ok_or(Refusal { number: 10, place: 0 })
}

/// What the finder with an allowance answers: the first assignment or a refusal, and a count.
#[derive(Clone, Debug, PartialEq, Eq)]
pub struct Counted {
    pub answer: Result<Vec<u64>, Refusal>,
    pub count: u64,
}

impl Counted {
    /// What is due on an allowance where this is found, or where the count is known to exceed it.
    pub fn within(found: Option<counting::Count>, allowance: u32) -> Self {
        let most = u64::from(allowance);
        match found.filter(|found| found.count <= most) {
            None => Counted { answer: Err(Refusal { number: 14, place: 0 }), count: most },
            Some(counting::Count { first, count }) => {
                Counted { answer: first.ok_or(Refusal { number: 10, place: 0 }), count }
            }
        }
    }
}

/// Operation: the same on an allowance of decisions, which are counted.
pub fn find_counted(tables: &Tables, settings: &Settings, allowance: u32, room: usize) -> Counted {
    let faults = || {
        refusals::of_tables(tables, None)?;
        refusals::of_settings(tables, settings)?;
        refusals::of_room(room, usize::from(tables.variables))
    };
    match faults() {
        Err(refusal) => Counted { answer: Err(refusal), count: 0 },
        Ok(()) => {
            let found = counting::by_walk(tables, settings, u64::from(allowance));
            Counted::within(found, allowance)
        }
    }
}

/// Operation: list the ids chosen for one variable.
pub fn chosen(
    tables: &Tables,
    assignment: &[u64],
    variable: u16,
    room: usize,
) -> Result<Vec<u16>, Refusal> {
    refusals::of_tables_and_variable(tables, variable)?;
    refusals::of_assignment(tables, assignment)?;
    refusals::of_room(room, ATOM_ROOM)?;
    let chosen = atoms::chosen(tables, assignment);
    Ok(chosen[usize::from(variable)].iter().map(|&id| id as u16).collect())
}

/// Operation: write a derivation. Its lines are open, so this says only whether there are any.
pub fn derivable(
    tables: &Tables,
    assignment: &[u64],
    pair: (u16, u16),
    room: usize,
) -> Result<(), Refusal> {
    let holds = subsumed(tables, assignment, pair)?;
    refusals::of_room(room, line_room(tables.concept_count()))?;
    refusals::refuse(11, (!holds).then_some(0))
}

/// Operation: check a derivation.
pub fn check_derivation(
    tables: &Tables,
    assignment: &[u64],
    pair: (u16, u16),
    lines: &[u16],
) -> Result<(), Refusal> {
    refusals::of_tables(tables, Some(pair))?;
    refusals::of_assignment(tables, assignment)?;
    let chosen = atoms::chosen(tables, assignment);
    refusals::refuse(12, derivation::fault(tables, &chosen, pair, lines))
}

/// Operation: show an interpretation where the pair fails, as rows of four numbers.
pub fn show(
    tables: &Tables,
    assignment: &[u64],
    pair: (u16, u16),
    room: usize,
) -> Result<Vec<u16>, Refusal> {
    refusals::of_tables(tables, Some(pair))?;
    refusals::of_assignment(tables, assignment)?;
    let relation = relation(tables, assignment);
    let holds = relation[usize::from(pair.0)][usize::from(pair.1)];
    refusals::refuse(15, holds.then_some(0))?;
    let rows = countermodel::shown_rows(tables, &relation);
    refusals::of_room(room, rows.len())?;
    Ok(rows)
}

/// Operation: whether a concept has an element of a given interpretation as a member.
pub fn belongs(
    tables: &Tables,
    assignment: &[u64],
    stock: &Stock,
    asked: (u16, u16),
) -> Result<bool, Refusal> {
    refusals::of_tables(tables, None)?;
    refusals::of_assignment(tables, assignment)?;
    refusals::of_stock(tables, stock, asked)?;
    Ok(members(tables, assignment, stock)[usize::from(asked.1)][usize::from(asked.0)])
}

/// Operation: close a held table under the rules, with the assignment told as pairs. All its bytes
/// afterwards.
pub fn update_table(tables: &Tables, told: &[u16], held: &[u8]) -> Result<Vec<u8>, Refusal> {
    refusals::of_tables(tables, None)?;
    refusals::of_told(tables, told)?;
    let count = tables.concept_count();
    refusals::of_room(held.len(), count * ROW_BYTES)?;
    let chosen = incremental::chosen(tables, told);
    let closed = incremental::closure(tables, &chosen, &layout::read(held, count));
    let mut bytes = held.to_vec();
    layout::write(&mut bytes, &closed);
    Ok(bytes)
}

/// Operation: the tables under new ids; `order[i]` is that of i. The rooms are the lengths of the
/// buffers for concepts, inclusions and questions.
pub fn renumber(tables: &Tables, order: &[u16], rooms: [usize; 3]) -> Result<Tables, Refusal> {
    refusals::of_tables(tables, None)?;
    refusals::refuse(21, renumbering::list_fault(order, tables.concept_count()))?;
    let after = renumbering::renumbered(tables, order);
    refusals::refuse(22, renumbering::rising_fault(&after, order))?;
    for (room, wanted) in rooms.into_iter().zip(tables.lengths()) {
        refusals::of_room(room, wanted)?;
    }
    Ok(after)
}

/// Operation: read a catalogue in OWL functional syntax. The rooms are the lengths of the buffers for
/// concepts and inclusions.
pub fn read_owl(text: &[u8], rooms: [usize; 2]) -> Result<Tables, Refusal> {
    for (room, wanted) in rooms.into_iter().zip(CATALOGUE_ROOMS) {
        refusals::of_room(room, wanted)?;
    }
    refusals::refuse(17, (text.len() > MAX_TEXT).then_some(MAX_TEXT))?;
    Ok(owl::tables(&owl::read(text)?))
}

/// Row x, column j: element x of the given interpretation is a member of concept j. All must be
/// accepted.
pub fn members(tables: &Tables, assignment: &[u64], stock: &Stock) -> Vec<Vec<bool>> {
    let chosen = atoms::chosen(tables, assignment);
    model::membership(&countermodel::read(stock), tables, &chosen)
}

/// Row i, column j: i is subsumed by j. The tables and the assignment must be accepted.
pub fn relation(tables: &Tables, assignment: &[u64]) -> Vec<Vec<bool>> {
    let chosen = atoms::chosen(tables, assignment);
    model::Canonical::build(tables, &chosen).members
}

/// Whether the operations find no fault in the tables nor in the assignment.
pub fn accepts(case: &Case) -> bool {
    refusals::of_tables(&case.tables, None).is_ok()
        && refusals::of_assignment(&case.tables, &case.assignment).is_ok()
}

/// The pairs of the relation, counted one by one and without its layout.
pub fn marks(relation: &[Vec<bool>]) -> u64 {
    relation.iter().flatten().filter(|&&holds| holds).count() as u64
}

/// The layout of the subsumption table: bit j mod 8 of byte j div 8 of row i.
pub fn rows(relation: &[Vec<bool>]) -> Vec<u8> {
    let mut bytes = vec![0; relation.len() * ROW_BYTES];
    for (i, row) in relation.iter().enumerate() {
        for (j, &holds) in row.iter().enumerate() {
            if holds {
                bytes[i * ROW_BYTES + j / 8] += 1 << (j % 8);
            }
        }
    }
    bytes
}
