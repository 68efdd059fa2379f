//! Derivations: 01's eight rules, the fifth as 02 widens it, read line by line, and a writer that closes under them.

use std::collections::BTreeSet;

use super::roles;
use crate::layout::Relation;
use crate::random::Random;
use crate::tables::{Concept, Tables};

/// Rule, left, right, extra.
pub type Line = [u16; 4];

/// Left and right id.
pub type Pair = (usize, usize);

pub fn pair(line: Line) -> Pair {
    (usize::from(line[1]), usize::from(line[2]))
}

pub fn split(numbers: &[u16]) -> Vec<Line> {
    numbers.chunks_exact(4).map(|line| [line[0], line[1], line[2], line[3]]).collect()
}

/// The pairs that must stand on earlier lines, or `None` if the line breaks its rule whatever
/// stands before it.
pub fn premises(tables: &Tables, chosen: &[Vec<usize>], line: Line) -> Option<Vec<Pair>> {
    let (left, right) = pair(line);
    let extra = usize::from(line[3]);
    let count = tables.concept_count();
    if left >= count || right >= count {
        return None;
    }
    let (below, above) = (tables.concept(left), tables.concept(right));
    match (line[0], extra, below, above) {
        (1, 0, _, _) if left == right => Some(vec![]),
        (1, 0, Concept::Name(one), Concept::Name(other)) if one == other => Some(vec![]),
        (2, 0, _, Concept::Top) => Some(vec![]),
        (3, 0, Concept::Conjunction(first, _), _) => Some(vec![(first, right)]),
        (3, 1, Concept::Conjunction(_, second), _) => Some(vec![(second, right)]),
        (4, 0, _, Concept::Conjunction(first, second)) => Some(vec![(left, first), (left, second)]),
        (5, 0, Concept::Existential(one, inner), Concept::Existential(other, outer))
            if roles::counts_as(tables, one, other) =>
        {
            Some(vec![(inner, outer)])
        }
        (6, place, _, _) => {
            let inclusion = tables.inclusion_pairs().get(place).copied();
            inclusion.map(|(from, to)| vec![(left, from), (to, right)])
        }
        (7, atom, Concept::Variable(variable), _) if chosen[variable].contains(&atom) => {
            Some(vec![(atom, right)])
        }
        (8, 0, _, Concept::Variable(variable)) => {
            Some(chosen[variable].iter().map(|&atom| (left, atom)).collect())
        }
        _ => None,
    }
}

/// The place of refusal 12. The tables, the assignment and the pair must be accepted.
pub fn fault(
    tables: &Tables,
    chosen: &[Vec<usize>],
    asked: (u16, u16),
    numbers: &[u16],
) -> Option<usize> {
    if numbers.is_empty() || numbers.len() % 4 != 0 {
        return Some(0);
    }
    let lines = split(numbers);
    let mut earlier = BTreeSet::new();
    for (place, &line) in lines.iter().enumerate() {
        match premises(tables, chosen, line) {
            Some(wanted) if wanted.iter().all(|pair| earlier.contains(pair)) => {}
            _ => return Some(place),
        }
        earlier.insert(pair(line));
    }
    let last = lines[lines.len() - 1];
    ((last[1], last[2]) != asked).then_some(lines.len())
}

/// Whether each line but the last is a premise of a later one that is needed itself. No pair may
/// stand twice.
pub fn all_needed(tables: &Tables, chosen: &[Vec<usize>], lines: &[Line]) -> bool {
    let mut needed = BTreeSet::new();
    needed.extend(lines.last().map(|&line| pair(line)));
    lines.iter().rev().all(|&line| {
        needed.extend(premises(tables, chosen, line).unwrap_or_default());
        needed.contains(&pair(line))
    })
}

/// Every line that may derive the pair, right or not.
fn candidates(tables: &Tables, chosen: &[Vec<usize>], (left, right): Pair) -> Vec<Line> {
    let line = |rule: u16, extra: usize| [rule, left as u16, right as u16, extra as u16];
    let mut lines: Vec<Line> = [1, 2, 4, 5, 8].iter().map(|&rule| line(rule, 0)).collect();
    lines.extend([line(3, 0), line(3, 1)]);
    lines.extend((0..tables.inclusion_pairs().len()).map(|place| line(6, place)));
    if let Concept::Variable(variable) = tables.concept(left) {
        lines.extend(chosen[variable].iter().map(|&atom| line(7, atom)));
    }
    lines
}

/// A line for the pair whose premises are all marked, if there is one.
pub fn line_for(
    tables: &Tables,
    chosen: &[Vec<usize>],
    marked: &Relation,
    asked: Pair,
) -> Option<Line> {
    let follows = |line: &Line| match premises(tables, chosen, *line) {
        Some(wanted) => wanted.iter().all(|&(left, right)| marked[left][right]),
        None => false,
    };
    candidates(tables, chosen, asked).into_iter().find(follows)
}

/// One line for every pair that the rules give, premises first, in an order drawn at random.
pub fn closure(tables: &Tables, chosen: &[Vec<usize>], random: &mut Random) -> Vec<Line> {
    let count = tables.concept_count();
    let mut open: Vec<Pair> = (0..count * count).map(|k| (k / count, k % count)).collect();
    let mut marked = vec![vec![false; count]; count];
    let mut lines = Vec::new();
    loop {
        let before = lines.len();
        random.shuffle(&mut open);
        open.retain(|&asked| {
            let found = line_for(tables, chosen, &marked, asked);
            lines.extend(found);
            marked[asked.0][asked.1] = found.is_some();
            found.is_none()
        });
        if lines.len() == before {
            return lines;
        }
    }
}

/// The lines of `closure` that one of its pairs needs, that pair last.
pub fn cut_down(
    tables: &Tables,
    chosen: &[Vec<usize>],
    closure: &[Line],
    asked: Pair,
) -> Vec<Line> {
    let mut needed = BTreeSet::from([asked]);
    let mut lines: Vec<Line> = Vec::new();
    for &line in closure.iter().rev() {
        if needed.contains(&pair(line)) {
            needed.extend(premises(tables, chosen, line).unwrap_or_default());
            lines.push(line);
        }
    }
    lines.reverse();
    lines
}
