//! Refusals 1 to 9 of 01, 16 and 19 of 02, and those of a given interpretation and of told pairs. Each check answers the
//! lowest place at fault.

use super::atoms;
use super::Refusal;
use crate::limits::*;
use crate::settings::Settings;
use crate::tables::{Concept, Stock, Tables};

/// Checks 1 to 6, 16 and 7 in order. A pair given alone is judged within check 4, at place 0.
pub fn of_tables(tables: &Tables, pair: Option<(u16, u16)>) -> Result<(), Refusal> {
    refuse(1, limit_fault(tables))?;
    refuse(2, ids(tables).find(|&id| malformed(tables, id)))?;
    refuse(3, ids(tables).find(|&id| looks_ahead(tables, id)))?;
    refuse(4, pair_fault(tables, pair))?;
    refuse(5, variable_in_inclusion(tables))?;
    refuse(6, variables_on_both_sides(tables))?;
    refuse(16, tables.role_pairs().position(|(r, s)| r > MAX_ROLE || s > MAX_ROLE))?;
    let too_many = atoms::list(tables).len() > MAX_ATOMS;
    refuse(7, too_many.then_some(64))
}

/// The same with a variable's number beside the tables, judged within check 2 at place 0, the
/// lowest place there is.
pub fn of_tables_and_variable(tables: &Tables, variable: u16) -> Result<(), Refusal> {
    refuse(1, limit_fault(tables))?;
    refuse(2, (variable >= tables.variables).then_some(0))?;
    of_tables(tables, None)
}

/// The same with a question's place beside the tables, judged within check 4 at place 0.
pub fn of_tables_and_question(tables: &Tables, question: u16) -> Result<(), Refusal> {
    let asked = usize::from(question) < tables.questions.len() / 2;
    // an id past every table is refused just where the place is
    of_tables(tables, (!asked).then_some((u16::MAX, u16::MAX)))
}

/// Check 9, for accepted tables.
pub fn of_assignment(tables: &Tables, assignment: &[u64]) -> Result<(), Refusal> {
    let variables = usize::from(tables.variables);
    if assignment.len() != variables {
        return refuse(9, Some(variables));
    }
    let count = atoms::list(tables).len();
    let past = |choice: u64| (count..64).any(|position| choice >> position & 1 == 1);
    refuse(9, assignment.iter().position(|&choice| past(choice)))
}

/// Check 9 of an assignment told as pairs, for accepted tables.
pub fn of_told(tables: &Tables, told: &[u16]) -> Result<(), Refusal> {
    refuse(9, (told.len() % 2 != 0).then_some(0))?;
    let atoms = atoms::list(tables);
    let accepted =
        |pair: &[u16]| pair[0] < tables.variables && atoms.contains(&usize::from(pair[1]));
    refuse(9, told.chunks_exact(2).position(|pair| !accepted(pair)))
}

/// Check 19, for accepted tables.
pub fn of_settings(tables: &Tables, settings: &Settings) -> Result<(), Refusal> {
    let variables = usize::from(tables.variables);
    let Settings { permitted, largest } = settings;
    let another_number = permitted.len() != variables || largest.len() != variables;
    refuse(19, another_number.then_some(variables))?;
    let count = atoms::list(tables).len();
    let past = |k: usize| (count..64).any(|position| permitted[k] >> position & 1 == 1);
    refuse(19, (0..variables).find(|&k| past(k) || usize::from(largest[k]) > MAX_ATOMS))
}

/// Check 8: the place is the length wanted.
pub fn of_room(room: usize, wanted: usize) -> Result<(), Refusal> {
    refuse(8, (room < wanted).then_some(wanted))
}

/// The checks 1, 2 and 4 of a given interpretation and of what is asked of it.
pub fn of_stock(
    tables: &Tables,
    stock: &Stock,
    (concept, element): (u16, u16),
) -> Result<(), Refusal> {
    let size = usize::from(stock.size);
    let unfit = size == 0 || size > MAX_ELEMENTS || stock.rows.len() % 4 != 0;
    refuse(1, unfit.then_some(0))?;
    refuse(2, stock.split().position(|row| !well_formed(stock.size, row)))?;
    let faults = [usize::from(concept) >= tables.concept_count(), element >= stock.size];
    refuse(4, faults.iter().position(|&fault| fault))
}

/// Names and roles are any number.
fn well_formed(size: u16, row: [u16; 4]) -> bool {
    match row {
        [0, element, _, rest] => element < size && rest == 0,
        [1, element, _, target] => element < size && target < size,
        _ => false,
    }
}

pub fn refuse(number: u16, place: Option<usize>) -> Result<(), Refusal> {
    match place {
        None => Ok(()),
        Some(place) => Err(Refusal { number, place: place as u64 }),
    }
}

fn ids(tables: &Tables) -> std::ops::Range<usize> {
    0..tables.concept_count()
}

fn limit_fault(tables: &Tables) -> Option<usize> {
    let bad = |len: usize, width: usize, most: usize| len % width != 0 || len / width > most;
    let faults = [
        bad(tables.concepts.len(), 3, MAX_CONCEPTS),
        bad(tables.inclusions.len(), 2, MAX_INCLUSIONS),
        bad(tables.questions.len(), 2, MAX_QUESTIONS),
        usize::from(tables.variables) > MAX_VARIABLES,
        bad(tables.roles.len(), 2, MAX_ROLE_PAIRS),
    ];
    faults.iter().position(|&fault| fault)
}

/// Check 2 of one row. Inner ids are check 3's.
fn malformed(tables: &Tables, id: usize) -> bool {
    match tables.row(id) {
        [0, a, b] => a != 0 || b != 0,
        [1, name, b] => name > MAX_NAME || b != 0,
        [2, role, _] => role > MAX_ROLE,
        [3, _, _] => false,
        [4, variable, b] => variable >= tables.variables || b != 0,
        _ => true,
    }
}

/// Check 3 of one row.
pub fn looks_ahead(tables: &Tables, id: usize) -> bool {
    match tables.concept(id) {
        Concept::Existential(_, inner) => inner >= id,
        Concept::Conjunction(first, second) => first >= id || second >= id,
        _ => false,
    }
}

fn pair_fault(tables: &Tables, pair: Option<(u16, u16)>) -> Option<usize> {
    let count = tables.concept_count();
    if let Some((left, right)) = pair {
        if usize::from(left) >= count || usize::from(right) >= count {
            return Some(0);
        }
    }
    let through = [tables.inclusion_pairs(), tables.question_pairs()].concat();
    through.iter().position(|&(left, right)| left >= count || right >= count)
}

fn variable_in_inclusion(tables: &Tables) -> Option<usize> {
    let pattern = atoms::patterns(tables);
    let faulty = |&(left, right): &(usize, usize)| pattern[left] || pattern[right];
    tables.inclusion_pairs().iter().position(faulty)
}

fn variables_on_both_sides(tables: &Tables) -> Option<usize> {
    let pattern = atoms::patterns(tables);
    let faulty = |&(left, right): &(usize, usize)| pattern[left] && pattern[right];
    tables.question_pairs().iter().position(faulty)
}
