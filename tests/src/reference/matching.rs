//! Matching (01: finding a filling), twice: by trying every assignment, and by a search that
//! learns.
//!
//! The search keeps clauses over the pairs (variable, position) that every solution satisfies,
//! takes their first model in 01's order, and asks the questions under it. A monotone question
//! that fails (more atoms only help) is made to fail with as many atoms as possible: one of the
//! others must be taken. An antitone one is made to fail with as few as possible: one of them must
//! be left. A model under which no question fails is the first solution; clauses without a model
//! mean that there is none. Settings are there from the start: a clause for each pair that is not
//! permitted, and a largest number for each variable's pairs.

use super::clauses::Clauses;
use super::model::Canonical;
use super::patterns::Patterns;
use super::{atoms, relation, roles};
use crate::settings::Settings;
use crate::tables::Tables;

/// Whether every question holds under the assignment.
pub fn solves(tables: &Tables, assignment: &[u64]) -> bool {
    solves_choosing(tables, &atoms::chosen(tables, assignment))
}

/// Whether every question holds with these ids chosen for each variable, atoms or not.
pub fn solves_choosing(tables: &Tables, chosen: &[Vec<usize>]) -> bool {
    let below = Canonical::build(tables, chosen).members;
    tables.question_pairs().iter().all(|&(left, right)| below[left][right])
}

/// The number of pairs (variable, position).
pub fn choices(tables: &Tables) -> usize {
    usize::from(tables.variables) * atoms::list(tables).len()
}

/// The first of all assignments that solves, each tried in 01's order: the pair (0, 0) is the
/// highest digit, and leaving out is 0.
pub fn brute_force(tables: &Tables) -> Option<Vec<u64>> {
    brute_force_over(tables, &atoms::list(tables))
}

/// The same where the variables choose from another list of ids.
pub fn brute_force_over(tables: &Tables, ids: &[usize]) -> Option<Vec<u64>> {
    solutions_over(tables, ids).next()
}

/// Every assignment that solves, in 01's order.
pub fn solutions(tables: &Tables) -> Vec<Vec<u64>> {
    solutions_over(tables, &atoms::list(tables)).collect()
}

fn solutions_over<'a>(tables: &'a Tables, ids: &'a [usize]) -> impl Iterator<Item = Vec<u64>> + 'a {
    let solves =
        |assignment: &Vec<u64>| solves_choosing(tables, &atoms::chosen_from(ids, assignment));
    every_assignment(tables, ids).filter(solves)
}

/// Every assignment, in 01's order.
fn every_assignment<'a>(
    tables: &'a Tables,
    ids: &'a [usize],
) -> impl Iterator<Item = Vec<u64>> + 'a {
    let choices = usize::from(tables.variables) * ids.len();
    assert!(choices < 20, "too many assignments to try");
    let of_number = move |number: u32| {
        let mut assignment = vec![0; usize::from(tables.variables)];
        for digit in (0..choices).filter(|&digit| number >> (choices - 1 - digit) & 1 == 1) {
            assignment[digit / ids.len()] |= 1 << (digit % ids.len());
        }
        assignment
    };
    (0..1u32 << choices).map(of_number)
}

/// Whether no variable takes an atom that it may not, nor more of them than its largest count.
pub fn heeds(settings: &Settings, assignment: &[u64]) -> bool {
    let heeded = |(k, &choice): (usize, &u64)| {
        let position = |&position: &usize| choice >> position & 1 == 1;
        let mut taken = (0..64).filter(position);
        let count = taken.clone().count();
        count <= usize::from(settings.largest[k])
            && taken.all(|position| settings.permitted[k] >> position & 1 == 1)
    };
    assignment.iter().enumerate().all(heeded)
}

/// The first of all assignments within the settings that solves, each tried.
pub fn brute_force_within(tables: &Tables, settings: &Settings) -> Option<Vec<u64>> {
    solutions(tables).into_iter().find(|assignment| heeds(settings, assignment))
}

/// The first of all assignments within the settings that solves these questions, each tried.
pub fn brute_force_among(
    tables: &Tables,
    settings: &Settings,
    questions: &[usize],
) -> Option<Vec<u64>> {
    let ids = atoms::list(tables);
    let pairs = tables.question_pairs();
    let solves = |assignment: &Vec<u64>| {
        let below = Canonical::build(tables, &atoms::chosen_from(&ids, assignment)).members;
        questions.iter().all(|&m| below[pairs[m].0][pairs[m].1])
    };
    let mut every = every_assignment(tables, &ids);
    every.find(|assignment| heeds(settings, assignment) && solves(assignment))
}

/// The first solution, by the search. The tables must be accepted.
pub fn first_solution(tables: &Tables) -> Option<Vec<u64>> {
    first_solution_with_effort(tables).0
}

/// The same where the variables choose from another list of up to 64 ids.
pub fn first_solution_over(tables: &Tables, ids: &[usize]) -> Option<Vec<u64>> {
    search_over(tables, ids).0
}

/// The first solution within settings that check 19 accepts, by the search.
pub fn first_solution_within(tables: &Tables, settings: &Settings) -> Option<Vec<u64>> {
    first_solution_within_with_effort(tables, settings).0
}

/// The same and what it took.
pub fn first_solution_within_with_effort(
    tables: &Tables,
    settings: &Settings,
) -> (Option<Vec<u64>>, Effort) {
    let patterns = patterns_over(tables, &atoms::list(tables));
    let clauses = clauses_of(settings, patterns.atom_count());
    search_with_effort(&patterns, clauses, usize::from(tables.variables))
}

/// The first one within the settings that solves these questions, by the search.
pub fn first_solution_among(
    tables: &Tables,
    settings: &Settings,
    questions: &[usize],
) -> Option<Vec<u64>> {
    let patterns = patterns_over(tables, &atoms::list(tables));
    let clauses = clauses_of(settings, patterns.atom_count());
    search_among(&patterns, questions, clauses, usize::from(tables.variables)).0
}

/// A largest count that leaves room for all is none.
fn clauses_of(settings: &Settings, atoms: usize) -> Clauses {
    let mut clauses = Clauses::new(settings.permitted.len() * atoms);
    for (k, &permitted) in settings.permitted.iter().enumerate() {
        let pairs = k * atoms..(k + 1) * atoms;
        let barred = pairs.clone().filter(|pair| permitted >> (pair - k * atoms) & 1 == 0);
        barred.for_each(|pair| clauses.add(vec![(pair, false)]));
        let most = usize::from(settings.largest[k]);
        if most < atoms {
            clauses.add_at_most(pairs, most);
        }
    }
    clauses
}

/// How hard the search was.
#[derive(Clone, Copy, Debug, Default, PartialEq, Eq)]
pub struct Effort {
    /// Assignments under which the questions were asked.
    pub tried: usize,
    /// Decisions that were taken back.
    pub conflicts: usize,
}

/// The first solution and what it took.
pub fn first_solution_with_effort(tables: &Tables) -> (Option<Vec<u64>>, Effort) {
    search_over(tables, &atoms::list(tables))
}

fn search_over(tables: &Tables, ids: &[usize]) -> (Option<Vec<u64>>, Effort) {
    let patterns = patterns_over(tables, ids);
    let variables = usize::from(tables.variables);
    search_with_effort(&patterns, Clauses::new(variables * ids.len()), variables)
}

/// The questions of accepted tables, whose variables choose from these ids.
pub fn patterns_over(tables: &Tables, ids: &[usize]) -> Patterns {
    let below = relation(tables, &vec![0; usize::from(tables.variables)]);
    let wider = roles::wider_bits(tables);
    Patterns::new(tables, ids, wider, |i, j| below[i][j])
}

fn search_with_effort(
    patterns: &Patterns,
    clauses: Clauses,
    variables: usize,
) -> (Option<Vec<u64>>, Effort) {
    let all: Vec<usize> = (0..patterns.question_count()).collect();
    search_among(patterns, &all, clauses, variables)
}

/// `clauses` are those that are known beforehand.
fn search_among(
    patterns: &Patterns,
    questions: &[usize],
    mut clauses: Clauses,
    variables: usize,
) -> (Option<Vec<u64>>, Effort) {
    let atoms = patterns.atom_count();
    let mut tried = 0;
    loop {
        let model = clauses.first_model();
        let effort = Effort { tried, conflicts: clauses.conflicts };
        let model = match model {
            Some(model) => model,
            None => return (None, effort),
        };
        tried += 1;
        let mut assignment = vec![0; variables];
        for pair in (0..model.len()).filter(|&pair| model[pair]) {
            assignment[pair / atoms] |= 1 << (pair % atoms);
        }
        let fails = |&question: &usize| !patterns.holds(question, &assignment);
        let failing: Vec<usize> = questions.iter().copied().filter(fails).collect();
        if failing.is_empty() {
            return (Some(assignment), Effort { tried, ..effort });
        }
        for question in failing {
            let more = patterns.is_monotone(question);
            clauses.add(explain(patterns, question, &assignment, more));
        }
    }
}

/// A clause that the failing assignment breaks and that no solution does. With `more` the
/// assignment grows as far as the question still fails, else it shrinks.
fn explain(
    patterns: &Patterns,
    question: usize,
    failing: &[u64],
    more: bool,
) -> Vec<(usize, bool)> {
    let atoms = patterns.atom_count();
    let mut assignment = failing.to_vec();
    let mut clause = Vec::new();
    for variable in patterns.variables(question) {
        for position in (0..atoms).filter(|p| (failing[variable] >> p & 1 == 1) != more) {
            assignment[variable] ^= 1 << position;
            if patterns.holds(question, &assignment) {
                assignment[variable] ^= 1 << position;
                clause.push((variable * atoms + position, more));
            }
        }
    }
    clause
}
