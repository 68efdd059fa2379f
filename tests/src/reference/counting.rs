//! The count of decisions (02: an allowance of decisions), twice: by its definition over all partial
//! choices, and by a walk that passes over whatever extends a shut one.

use super::patterns::Patterns;
use super::{atoms, blanks, matching, relation};
use crate::settings::Settings;
use crate::tables::Tables;

/// The first solution within the settings, or none, and the count.
#[derive(Clone, Debug, PartialEq, Eq)]
pub struct Count {
    pub first: Option<Vec<u64>>,
    pub count: u64,
}

/// What the pairs (variable, position) that are settled say, in the order of assignments: whether the
/// atom is taken. Lists compare in 02's order: a shorter one is before its extensions, and left out
/// before taken.
pub type Partial = Vec<bool>;

/// By the definition: of all partial choices in order the open ones, up to and including the answer.
/// The tables and settings must be accepted.
pub fn by_definition(tables: &Tables, settings: &Settings) -> Count {
    let first = matching::brute_force_within(tables, settings);
    let answer = first.as_ref().map(|first| settled_by(tables, first));
    let counts = |s: &Partial| answer.as_ref().map_or(true, |answer| s <= answer);
    let opened =
        all(matching::choices(tables)).into_iter().filter(|s| is_open(tables, settings, s));
    let count = opened.filter(counts).count() as u64;
    Count { first, count }
}

/// Every partial choice of so many pairs, or of fewer.
pub fn all(pairs: usize) -> Vec<Partial> {
    assert!(pairs < 16, "too many partial choices");
    let of_length =
        |k: usize| (0..1u32 << k).map(move |bits| (0..k).map(|p| bits >> p & 1 == 1).collect());
    (0..=pairs).flat_map(of_length).collect()
}

/// The partial choice that settles every pair as the assignment has it.
fn settled_by(tables: &Tables, assignment: &[u64]) -> Partial {
    let atoms = atoms::list(tables).len();
    (0..matching::choices(tables)).map(|p| assignment[p / atoms] >> (p % atoms) & 1 == 1).collect()
}

/// The assignment with the unsettled atoms as `rest` has them.
fn completed(tables: &Tables, s: &[bool], rest: &[u64]) -> Vec<u64> {
    let atoms = atoms::list(tables).len();
    let mut assignment = vec![0; usize::from(tables.variables)];
    for p in 0..matching::choices(tables) {
        let (k, position) = (p / atoms, p % atoms);
        let taken = s.get(p).copied().unwrap_or(rest[k] >> position & 1 == 1);
        assignment[k] |= u64::from(taken) << position;
    }
    assignment
}

/// Whether what is taken is within the settings, the questions without a blank on the right hold with
/// the unsettled permitted atoms taken, and all others with them left out.
pub fn is_open(tables: &Tables, settings: &Settings, s: &[bool]) -> bool {
    let low = completed(tables, s, &vec![0; usize::from(tables.variables)]);
    let high = completed(tables, s, &settings.permitted);
    let (under_low, under_high) = (relation(tables, &low), relation(tables, &high));
    let holds = |&(left, right): &(usize, usize)| match blanks::set(tables, right) {
        0 => under_high[left][right],
        _ => under_low[left][right],
    };
    matching::heeds(settings, &low) && tables.question_pairs().iter().all(holds)
}

/// By a walk: what extends a shut one is shut. None where the count is over `most`.
pub fn by_walk(tables: &Tables, settings: &Settings, most: u64) -> Option<Count> {
    let patterns = matching::patterns_over(tables, &atoms::list(tables));
    let pairs = matching::choices(tables);
    let mut count = 0;
    let nothing = vec![0; usize::from(tables.variables)];
    // how many pairs are settled, and the assignments with the others left out and taken; the last
    // is the next one in order
    let mut waiting = vec![(0, nothing, settings.permitted.clone())];
    while let Some((settled, low, high)) = waiting.pop() {
        if !matching::heeds(settings, &low) || !between(&patterns, &low, &high) {
            continue;
        }
        if count == most {
            return None;
        }
        count += 1;
        if settled == pairs {
            return Some(Count { first: Some(low), count });
        }
        let (k, bit) = (settled / patterns.atom_count(), 1 << (settled % patterns.atom_count()));
        let (mut more, mut fewer) = (low.clone(), high.clone());
        more[k] |= bit;
        fewer[k] &= !bit;
        // a barred atom is not in `high`; once taken it heeds no settings
        waiting.push((settled + 1, more, high));
        waiting.push((settled + 1, low, fewer));
    }
    Some(Count { first: None, count })
}

/// Whether each question holds under the one of the two that is easier for it.
fn between(patterns: &Patterns, low: &[u64], high: &[u64]) -> bool {
    let easier = |question: usize| if patterns.is_monotone(question) { high } else { low };
    (0..patterns.question_count()).all(|question| patterns.holds(question, easier(question)))
}
