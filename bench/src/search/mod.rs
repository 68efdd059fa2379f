//! Matching by a search of its own: pattern tests on one subsumption table, and intervals of
//! assignments that hold no solution. One technique a file:
//!
//! - `patterns`: what a pattern is above or below, from the rows and columns of one table
//! - `closing`: where a pattern is closed under conjunctions, and under which of them
//! - `questions`: the questions with variables, those with few variables first
//! - `narrowing`: atoms that no solution takes are left out before the search
//! - `nogoods`: the intervals without a solution, kept as they are and sliced by pairs
//! - `look_up`: what the nogoods say of an interval, 64 of them in one word
//! - `widening`: a failed question, and it alone, is made to fail as widely as it does
//! - `counts`: largest counts clamp an interval
//! - `needs`: nogoods that together want more than a largest count
//! - `solve`: some solution of an interval, or a nogood around it
//! - `first`: the first solution, by leaving out each pair that some solution leaves out

mod closing;
mod counts;
mod first;
mod look_up;
mod narrowing;
mod needs;
mod nogoods;
mod pairs;
mod patterns;
mod questions;
mod solve;
mod widening;

use crate::checks::{self, Accepted, Input, Refusal};
use crate::columns::Columns;
use counts::Counts;
use nogoods::Nogoods;
use pairs::Choice;
use patterns::Patterns;
use questions::Questions;
use solve::{Answer, Search};

/// Writes the first assignment that solves every question.
pub fn find(input: Input, out: &mut [u64]) -> Result<(), Refusal> {
    let accepted = checks::accept(&input, None)?;
    let all = [accepted.all_atoms(); 8];
    let variables = usize::from(input.variables);
    write_first(&input, &accepted, &all[..variables], &[], out)
}

/// Writes the first one that takes permitted atoms only, and no more than the largest counts.
pub fn find_within(
    input: Input,
    permitted: &[u64],
    largest: &[u16],
    out: &mut [u64],
) -> Result<(), Refusal> {
    let accepted = checks::accept(&input, None)?;
    checks::accept_settings(&input, &accepted, permitted, largest)?;
    write_first(&input, &accepted, permitted, largest, out)
}

fn write_first(
    input: &Input,
    accepted: &Accepted,
    permitted: &[u64],
    largest: &[u16],
    out: &mut [u64],
) -> Result<(), Refusal> {
    let variables = usize::from(input.variables);
    if out.len() < variables {
        return Err((8, variables as u64));
    }
    let first = find_first(input, accepted, permitted, largest).ok_or((10, 0))?;
    out[..variables].copy_from_slice(&first[..variables]);
    Ok(())
}

fn find_first(
    input: &Input,
    accepted: &Accepted,
    permitted: &[u64],
    largest: &[u16],
) -> Option<Choice> {
    let variables = usize::from(input.variables);
    let closed = Columns::close(input, accepted, &[0; 8][..variables]);
    let mut patterns = Patterns::new(input, accepted, &closed);
    let questions = Questions::new(input, &patterns)?;
    closing::prepare(&mut patterns, &questions);
    let mut full = [0; 8];
    full[..variables].copy_from_slice(permitted);
    if !narrowing::narrow(&mut patterns, &questions, &mut full) {
        return None;
    }
    let counts = Counts::new(largest, &full);
    let mut nogoods = Nogoods::new(full);
    let mut search = Search { patterns, questions, nogoods: &mut nogoods, full, counts };
    match search.some_solution(search.everything(), Nogoods::MOST) {
        Answer::Found(known) => Some(search.first_solution(known)),
        Answer::Nogood(_) => None,
    }
}
