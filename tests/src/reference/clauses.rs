//! Clauses over numbered propositions and their first model: proposition 0 first, false before
//! true. Decisions go in that order and each conflict is learnt as a clause, so that
//! propositions that have no part in a conflict cost nothing.
//!
//! Of a run of propositions there may be a largest number that are true. It is counted and not
//! written out as clauses, of which there would be too many: once it is reached, the others of the run
//! are false; and clauses that each still want one of the run, no two the same one, together want as
//! many as they are, which may be more than are left.

use std::collections::BTreeSet;
use std::ops::Range;

/// A proposition and the value that satisfies the clause.
pub type Literal = (usize, bool);

/// Why a proposition has its value.
#[derive(Clone, Copy)]
enum Reason {
    Decided,
    Clause(usize),
    /// The largest number of this run was reached.
    Count(usize),
}

/// Propositions of which at most so many are true.
struct Run {
    propositions: Range<usize>,
    most: usize,
}

pub struct Clauses {
    propositions: usize,
    clauses: Vec<Vec<Literal>>,
    /// For each proposition, the clauses that lose a literal when it becomes false, or true.
    losing: Vec<[Vec<usize>; 2]>,
    runs: Vec<Run>,
    /// For each proposition the run that it is in, if any.
    run_of: Vec<Option<usize>>,
    /// How often a decision was taken back so far.
    pub conflicts: usize,
}

/// Values given so far, in order, each with its level of decision and what forced it.
struct Trail {
    value: Vec<Option<bool>>,
    level: Vec<usize>,
    reason: Vec<Reason>,
    order: Vec<usize>,
    decisions: usize,
    passed: usize,
}

impl Clauses {
    pub fn new(propositions: usize) -> Self {
        let losing = vec![[Vec::new(), Vec::new()]; propositions];
        let (runs, run_of) = (Vec::new(), vec![None; propositions]);
        Clauses { propositions, clauses: Vec::new(), losing, runs, run_of, conflicts: 0 }
    }

    pub fn add(&mut self, clause: Vec<Literal>) {
        for &(proposition, value) in &clause {
            self.losing[proposition][usize::from(!value)].push(self.clauses.len());
        }
        self.clauses.push(clause);
    }

    /// Of these propositions, which are in no other run, at most so many are true.
    pub fn add_at_most(&mut self, propositions: Range<usize>, most: usize) {
        self.run_of[propositions.clone()].fill(Some(self.runs.len()));
        self.runs.push(Run { propositions, most });
    }

    /// The first model, if there is one.
    pub fn first_model(&mut self) -> Option<Vec<bool>> {
        let mut trail = Trail::new(self.propositions);
        let mut conflict = self.start(&mut trail);
        loop {
            while let Some(clause) = conflict {
                // clauses that want too many may all have been there before the last decision
                let last = clause.iter().map(|&(p, _)| trail.level[p]).max().unwrap_or(0);
                if last == 0 {
                    return None;
                }
                trail.back_to(last);
                self.conflicts += 1;
                let (learnt, level) = self.learn(&trail, clause);
                trail.back_to(level);
                let (proposition, value) = learnt[0];
                self.add(learnt);
                trail.give(proposition, value, Reason::Clause(self.clauses.len() - 1));
                conflict = self.propagate(&mut trail);
            }
            let open = match trail.value.iter().position(Option::is_none) {
                None => return Some(trail.value.iter().map(|&v| v == Some(true)).collect()),
                Some(open) => open,
            };
            conflict = self.run_of[open].and_then(|run| self.wanting_too_many(&trail, run));
            if conflict.is_none() {
                trail.decisions += 1;
                trail.give(open, false, Reason::Decided);
                conflict = self.propagate(&mut trail);
            }
        }
    }

    /// Clauses of one literal, or of none, and runs of which none may be true are at work before any
    /// decision.
    fn start(&self, trail: &mut Trail) -> Option<Vec<Literal>> {
        for (at, clause) in self.clauses.iter().enumerate() {
            match clause[..] {
                [] => return Some(Vec::new()),
                [(proposition, value)] if trail.value[proposition].is_none() => {
                    trail.give(proposition, value, Reason::Clause(at));
                }
                [(proposition, value)] if trail.value[proposition] != Some(value) => {
                    return Some(clause.clone());
                }
                _ => {}
            }
        }
        let full = (0..self.runs.len()).find_map(|run| self.count(trail, run));
        full.or_else(|| self.propagate(trail))
    }

    /// Gives what the clauses and runs force; a clause that nothing satisfies any more is the
    /// conflict.
    fn propagate(&self, trail: &mut Trail) -> Option<Vec<Literal>> {
        while trail.passed < trail.order.len() {
            let proposition = trail.order[trail.passed];
            trail.passed += 1;
            let value = trail.value[proposition] == Some(true);
            for &at in &self.losing[proposition][usize::from(value)] {
                let clause = &self.clauses[at];
                if clause.iter().any(|&(p, wanted)| trail.value[p] == Some(wanted)) {
                    continue;
                }
                let mut open = clause.iter().filter(|&&(p, _)| trail.value[p].is_none());
                match (open.next(), open.next()) {
                    (None, _) => return Some(clause.clone()),
                    (Some(&(p, wanted)), None) => trail.give(p, wanted, Reason::Clause(at)),
                    _ => {}
                }
            }
            if let (true, Some(run)) = (value, self.run_of[proposition]) {
                let conflict = self.count(trail, run);
                if conflict.is_some() {
                    return conflict;
                }
            }
        }
        None
    }

    /// The propositions of the run that are true, as a clause that this breaks.
    fn taken(&self, trail: &Trail, run: usize) -> Vec<Literal> {
        let propositions = self.runs[run].propositions.clone();
        propositions.filter(|&p| trail.value[p] == Some(true)).map(|p| (p, false)).collect()
    }

    /// Once the largest number is reached, the others are false. More are a conflict.
    fn count(&self, trail: &mut Trail, run: usize) -> Option<Vec<Literal>> {
        let taken = self.taken(trail, run);
        let Run { propositions, most } = &self.runs[run];
        if taken.len() == *most {
            for proposition in propositions.clone() {
                if trail.value[proposition].is_none() {
                    trail.give(proposition, false, Reason::Count(run));
                }
            }
        }
        (taken.len() > *most).then_some(taken)
    }

    /// Where clauses without a literal in common want more of the run than may still be true: what
    /// is taken of it, and what those clauses have lost.
    fn wanting_too_many(&self, trail: &Trail, run: usize) -> Option<Vec<Literal>> {
        let Run { propositions, most } = &self.runs[run];
        let is_open = |p: &usize| trail.value[*p].is_none();
        let taken = self.taken(trail, run);
        if taken.len() + propositions.clone().filter(is_open).count() <= *most {
            return None;
        }
        let mut met = BTreeSet::new();
        let mut wanted = taken.len();
        let mut lost = taken;
        for clause in &self.clauses {
            if clause.iter().any(|&(p, value)| trail.value[p] == Some(value)) {
                continue;
            }
            let (open, closed): (Vec<Literal>, Vec<Literal>) =
                clause.iter().partition(|(p, _)| is_open(p));
            let wants = |&(p, value): &Literal| value && propositions.contains(&p);
            if open.iter().all(|literal| wants(literal) && !met.contains(&literal.0)) {
                met.extend(open.iter().map(|literal| literal.0));
                lost.extend(closed);
                wanted += 1;
            }
        }
        (wanted > *most).then_some(lost)
    }

    /// The literals that a value follows from, as the clause that forced it.
    fn forced_by(&self, trail: &Trail, proposition: usize) -> Vec<Literal> {
        match trail.reason[proposition] {
            Reason::Decided => Vec::new(),
            Reason::Clause(at) => self.clauses[at].clone(),
            Reason::Count(run) => self.taken(trail, run),
        }
    }

    /// Resolves the conflict back to one literal of the last decision's level. That literal comes
    /// first; the level is the highest of the others.
    fn learn(&self, trail: &Trail, conflict: Vec<Literal>) -> (Vec<Literal>, usize) {
        let mut seen = vec![false; self.propositions];
        let mut earlier: Vec<Literal> = Vec::new();
        let mut pending = 0;
        let mut clause = conflict;
        for &proposition in trail.order.iter().rev() {
            for (p, value) in clause.drain(..) {
                if seen[p] || trail.level[p] == 0 {
                    continue;
                }
                seen[p] = true;
                if trail.level[p] == trail.decisions {
                    pending += 1;
                } else {
                    earlier.push((p, value));
                }
            }
            if !seen[proposition] || trail.level[proposition] < trail.decisions {
                continue;
            }
            if pending == 1 {
                let level = earlier.iter().map(|&(p, _)| trail.level[p]).max().unwrap_or(0);
                earlier.insert(0, (proposition, trail.value[proposition] == Some(false)));
                return (earlier, level);
            }
            pending -= 1;
            clause = self.forced_by(trail, proposition);
        }
        unreachable!("a conflict goes back to the last decision")
    }
}

impl Trail {
    fn new(propositions: usize) -> Self {
        Trail {
            value: vec![None; propositions],
            level: vec![0; propositions],
            reason: vec![Reason::Decided; propositions],
            order: Vec::new(),
            decisions: 0,
            passed: 0,
        }
    }

    fn give(&mut self, proposition: usize, value: bool, reason: Reason) {
        self.value[proposition] = Some(value);
        self.level[proposition] = self.decisions;
        self.reason[proposition] = reason;
        self.order.push(proposition);
    }

    fn back_to(&mut self, level: usize) {
        while let Some(&last) = self.order.last() {
            if self.level[last] <= level {
                break;
            }
            self.value[last] = None;
            self.order.pop();
        }
        self.decisions = level;
        self.passed = self.order.len();
    }
}
