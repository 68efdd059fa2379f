//! A held subsumption table brought up to date (02, A.7), from premises to lines: each marked pair
//! is taken up once, and every line that it is a premise of, with the others marked too, marks its
//! own pair. Nothing else is marked, so the marks need not become transitive.

use std::collections::BTreeSet;

use super::derivation::Pair;
use super::roles;
use crate::layout::Relation;
use crate::tables::{Concept, Tables};

/// The ids told for each variable, rising. The pairs must be accepted.
pub fn chosen(tables: &Tables, told: &[u16]) -> Vec<Vec<usize>> {
    let of_variable = |variable: u16| {
        let pairs = told.chunks_exact(2).filter(|pair| pair[0] == variable);
        let ids: BTreeSet<usize> = pairs.map(|pair| usize::from(pair[1])).collect();
        ids.into_iter().collect()
    };
    (0..tables.variables).map(of_variable).collect()
}

/// The smallest relation on the ids that has all of the held one and is closed under the eight
/// rules. The tables must be accepted; `chosen` lists each variable's atoms.
pub fn closure(tables: &Tables, chosen: &[Vec<usize>], held: &Relation) -> Relation {
    let rules = Rules::new(tables, chosen);
    let count = held.len();
    let mut marks = Marks { marked: vec![vec![false; count]; count], open: Vec::new() };
    for (left, right) in (0..count).flat_map(|i| (0..count).map(move |j| (i, j))) {
        if held[left][right] || rules.need_nothing(left, right) {
            marks.mark((left, right));
        }
    }
    while let Some(pair) = marks.open.pop() {
        rules.follow(&mut marks, pair);
    }
    marks.marked
}

struct Marks {
    marked: Relation,
    /// Marked pairs that are not taken up yet.
    open: Vec<Pair>,
}

impl Marks {
    fn mark(&mut self, (left, right): Pair) {
        if !self.marked[left][right] {
            self.marked[left][right] = true;
            self.open.push((left, right));
        }
    }
}

struct Rules {
    concepts: Vec<Concept>,
    /// Conjunctions and variables with their members, the atoms chosen for a variable.
    wholes: Vec<(usize, Vec<usize>)>,
    /// Id, role and inner id.
    existentials: Vec<(usize, u16, usize)>,
    inclusions: Vec<Pair>,
    /// For each role those that it counts as, as bits.
    wider: Vec<u128>,
}

impl Rules {
    fn new(tables: &Tables, chosen: &[Vec<usize>]) -> Rules {
        let concepts: Vec<Concept> =
            (0..tables.concept_count()).map(|id| tables.concept(id)).collect();
        let (mut wholes, mut existentials) = (Vec::new(), Vec::new());
        for (id, &concept) in concepts.iter().enumerate() {
            match concept {
                Concept::Conjunction(first, second) => wholes.push((id, vec![first, second])),
                Concept::Variable(variable) => wholes.push((id, chosen[variable].clone())),
                Concept::Existential(role, inner) => existentials.push((id, role, inner)),
                Concept::Top | Concept::Name(_) => {}
            }
        }
        let (inclusions, wider) = (tables.inclusion_pairs(), roles::wider_bits(tables));
        Rules { concepts, wholes, existentials, inclusions, wider }
    }

    /// Lines without premises: rules 1 and 2, and 8 where nothing is chosen.
    fn need_nothing(&self, left: usize, right: usize) -> bool {
        let no_choice = |(id, members): &(usize, Vec<usize>)| *id == right && members.is_empty();
        match (self.concepts[left], self.concepts[right]) {
            _ if left == right => true,
            (Concept::Name(one), Concept::Name(other)) => one == other,
            (_, Concept::Top) => true,
            _ => self.wholes.iter().any(no_choice),
        }
    }

    /// Every line that this pair is a premise of.
    fn follow(&self, marks: &mut Marks, pair: Pair) {
        self.follow_members(marks, pair);
        self.follow_inner(marks, pair);
        self.follow_inclusions(marks, pair);
    }

    /// Rules 3 and 7: one member below the right is enough. Rules 4 and 8: the left is below all.
    fn follow_members(&self, marks: &mut Marks, (left, right): Pair) {
        for (id, members) in &self.wholes {
            if members.contains(&left) {
                marks.mark((*id, right));
            }
            if members.contains(&right) && members.iter().all(|&part| marks.marked[left][part]) {
                marks.mark((left, *id));
            }
        }
    }

    /// Rule 5: existentials over the left, and those over the right whose role theirs counts as.
    fn follow_inner(&self, marks: &mut Marks, (left, right): Pair) {
        for &(below, narrow, _) in self.existentials.iter().filter(|of| of.2 == left) {
            for &(above, wide, _) in self.existentials.iter().filter(|of| of.2 == right) {
                if self.wider[usize::from(narrow)] >> wide & 1 == 1 {
                    marks.mark((below, above));
                }
            }
        }
    }

    /// Rule 6, with the pair as its first or as its second premise.
    fn follow_inclusions(&self, marks: &mut Marks, (left, right): Pair) {
        for &(from, to) in self.inclusions.iter().filter(|pair| pair.0 == right || pair.1 == left) {
            for id in 0..self.concepts.len() {
                if from == right && marks.marked[to][id] {
                    marks.mark((left, id));
                }
                if to == left && marks.marked[id][from] {
                    marks.mark((id, right));
                }
            }
        }
    }
}
