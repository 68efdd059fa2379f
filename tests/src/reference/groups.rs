//! Groups of questions: those that share a blank, directly or through others; those without blanks
//! are one more. From the asked question on, whatever shares a blank with one that is in comes in.

use super::blanks;
use crate::tables::Tables;

/// The blanks of each question, on either side.
pub fn blank_sets(tables: &Tables) -> Vec<u8> {
    let set = |&(left, right): &(usize, usize)| blanks::set(tables, left) | blanks::set(tables, right);
    tables.question_pairs().iter().map(set).collect()
}

/// The places of the questions in the group of the asked one, rising. The tables must be accepted.
pub fn of(tables: &Tables, asked: usize) -> Vec<usize> {
    let sets = blank_sets(tables);
    let alike = |m: usize, n: usize| sets[m] & sets[n] != 0 || (sets[m] == 0 && sets[n] == 0);
    let mut inside = vec![false; sets.len()];
    let mut open = vec![asked];
    while let Some(m) = open.pop() {
        if !std::mem::replace(&mut inside[m], true) {
            open.extend((0..sets.len()).filter(|&n| alike(m, n)));
        }
    }
    (0..sets.len()).filter(|&m| inside[m]).collect()
}

/// Every group once, in the order of their first questions.
pub fn all(tables: &Tables) -> Vec<Vec<usize>> {
    let mut groups: Vec<Vec<usize>> = Vec::new();
    for m in 0..tables.question_pairs().len() {
        if !groups.iter().any(|group| group.contains(&m)) {
            groups.push(of(tables, m));
        }
    }
    groups
}
