//! Hard problems for the matcher: families that punish a walk over subsets in order, and puzzles
//! (clauses, colourings) dressed up as tables. Each says what is known of its answer.

use crate::builder::Builder;
use crate::generate;
use crate::limits::*;
use crate::random::Random;
use crate::reference::{self, atoms};
use crate::tables::Tables;

#[derive(Clone, Debug, PartialEq, Eq)]
pub enum Known {
    /// The first solution itself.
    First(Vec<u64>),
    Solvable,
    Unsolvable,
    Open,
}

pub struct Hard {
    pub label: String,
    pub tables: Tables,
    pub known: Known,
}

fn hard(label: String, builder: Builder, known: Known) -> Hard {
    let tables = builder.tables();
    assert_eq!(reference::check(&tables), Ok(()), "{} is refused:\n{}", label, tables);
    Hard { label, tables, known }
}

/// K harmless atoms before the one that is needed and forbidden.
pub fn needed_and_forbidden(k: usize) -> Hard {
    let mut b = Builder::default();
    let (_, below) = b.harmless(k);
    let (needed, x) = (b.name(), b.variable());
    b.ask(x, needed);
    b.ask(below, x);
    hard(format!("needed and forbidden, after {}", k), b, Known::Unsolvable)
}

/// The same atoms, and a solution that takes only atom 0.
pub fn only_atom_0(k: usize) -> Hard {
    let mut b = Builder::default();
    let (names, below) = b.harmless(k);
    let x = b.variable();
    b.ask(x, names[0]);
    b.ask(below, x);
    hard(format!("only atom 0 of {}", k), b, Known::First(vec![1]))
}

/// Two atoms that are possible alone and not together, both needed, after K harmless ones.
pub fn not_together(k: usize) -> Hard {
    let mut b = Builder::default();
    let (_, below) = b.harmless(k);
    let (one, other) = (b.name(), b.name());
    let (with_one, with_other) = (b.and(below, one), b.and(below, other));
    let witnesses = b.witnesses(0, &[with_one, with_other]);
    let x = b.variable();
    let some_x = b.some(0, x);
    b.ask(witnesses, some_x);
    b.ask(x, one);
    b.ask(x, other);
    hard(format!("not together, after {}", k), b, Known::Unsolvable)
}

/// At most one of three atoms, and two of them needed, after K harmless ones.
pub fn small_core(k: usize) -> Hard {
    let mut b = Builder::default();
    let (_, below) = b.harmless(k);
    let core = b.names(3);
    let goal = b.name();
    for (one, other) in [(0, 1), (0, 2), (1, 2)] {
        let two = b.and(core[one], core[other]);
        b.inclusions.push([two, goal]);
    }
    let with: Vec<u16> = core.iter().map(|&id| b.and(below, id)).collect();
    let witnesses = b.witnesses(0, &with);
    let x = b.variable();
    let some_x = b.some(0, x);
    b.ask(witnesses, some_x);
    b.ask(x, goal);
    hard(format!("small core, after {}", k), b, Known::Unsolvable)
}

/// Every variable has K harmless atoms and needs the first of them; the last variable needs a
/// forbidden one too.
pub fn conflict_in_the_last(k: usize, variables: usize) -> Hard {
    let mut b = Builder::default();
    let (names, below) = b.harmless(k);
    let forbidden = b.name();
    let all: Vec<u16> = (0..variables).map(|_| b.variable()).collect();
    for &x in &all {
        b.ask(below, x);
        b.ask(x, names[0]);
    }
    b.ask(all[variables - 1], forbidden);
    let label = format!("conflict in the last of {}, {} each", variables, k);
    hard(label, b, Known::Unsolvable)
}

/// A variable in no question before an unsolvable one, or before one that is solved.
pub fn idle_variable(k: usize, solvable: bool) -> Hard {
    let mut b = Builder::default();
    let (names, below) = b.harmless(k);
    let (_idle, x) = (b.variable(), b.variable());
    b.ask(below, x);
    b.ask(x, names[k - 1]);
    let mut known = Known::First(vec![0, 1 << (k - 1)]);
    if !solvable {
        let forbidden = b.name();
        b.ask(x, forbidden);
        known = Known::Unsolvable;
    }
    let which = if solvable { "a solvable" } else { "an unsolvable" };
    hard(format!("idle beside {} one, {}", which, k), b, known)
}

/// Tables at every limit with 8 variables and random questions.
pub fn random_at_the_limits(seed: u64) -> Hard {
    let tables = generate::full(&mut Random::new(seed));
    Hard { label: format!("random at the limits, {}", seed), tables, known: Known::Open }
}

/// The same with questions that one hidden assignment solves.
pub fn solvable_at_the_limits(seed: u64) -> Hard {
    let mut random = Random::new(seed);
    let mut tables = generate::full(&mut random);
    let choice = |random: &mut Random| random.number() & random.number();
    let hidden: Vec<u64> = (0..tables.variables).map(|_| choice(&mut random)).collect();
    let below = reference::relation(&tables, &hidden);
    let pattern = atoms::patterns(&tables);
    tables.questions.clear();
    while tables.questions.len() < 2 * MAX_QUESTIONS {
        let (left, right) = (random.below(MAX_CONCEPTS), random.below(MAX_CONCEPTS));
        // the right side must bring no atom that is not there, so it is a pattern or an atom
        let known_right = pattern[right] || (8..72).contains(&right);
        if pattern[left] != pattern[right] && known_right && below[left][right] {
            tables.questions.extend([left as u16, right as u16]);
        }
    }
    assert_eq!(reference::check(&tables), Ok(()), "{}", tables);
    Hard { label: format!("solvable at the limits, {}", seed), tables, known: Known::Solvable }
}

/// A literal is twice its proposition, and one more where it is denied.
type Clause = [usize; 3];

fn random_clauses(random: &mut Random, propositions: usize, count: usize) -> Vec<Clause> {
    let clause = |random: &mut Random| {
        let mut order: Vec<usize> = (0..propositions).collect();
        random.shuffle(&mut order);
        [0, 1, 2].map(|k| 2 * order[k] + random.below(2))
    };
    (0..count).map(|_| clause(random)).collect()
}

fn satisfiable(propositions: usize, clauses: &[Clause]) -> Known {
    let holds = |values: usize, literal: usize| values >> (literal / 2) & 1 != literal & 1;
    let model = |values: &usize| clauses.iter().all(|c| c.iter().any(|&l| holds(*values, l)));
    match (0..1 << propositions).find(model) {
        Some(_) => Known::Solvable,
        None => Known::Unsolvable,
    }
}

/// The first random clauses with this answer.
fn clauses_with(known: Known, propositions: usize, count: usize, seed: u64) -> Vec<Clause> {
    let mut random = Random::new(seed);
    loop {
        let clauses = random_clauses(&mut random, propositions, count);
        if satisfiable(propositions, &clauses) == known {
            return clauses;
        }
    }
}

/// Random clauses over one variable.
pub fn clauses_over_one(propositions: usize, count: usize, seed: u64) -> Hard {
    over_one(propositions, &random_clauses(&mut Random::new(seed), propositions, count))
}

/// Clauses over one variable: an atom for each literal. Two witnesses forbid each proposition and
/// its denial together; a marker beside the variable keeps a clause's own atom from being taken
/// for one of its literals.
fn over_one(propositions: usize, clauses: &[Clause]) -> Hard {
    let label = format!("{} clauses over one blank, {} propositions", clauses.len(), propositions);
    let mut b = Builder::default();
    let literals = b.names(2 * propositions);
    let (marker, x) = (b.name(), b.variable());
    let without = all_but_one(&mut b, &literals);
    let some_x = b.some(0, x);
    for two in without.chunks_exact(2) {
        let left = b.witnesses(0, two);
        b.ask(left, some_x);
    }
    let marked: Vec<u16> = literals.iter().map(|&literal| b.and(literal, marker)).collect();
    let marked_x = b.and(x, marker);
    let goals: Vec<u16> = clauses.iter().map(|clause| goal(&mut b, &marked, clause)).collect();
    let all = b.all(&goals);
    b.ask(marked_x, all);
    hard(label, b, satisfiable(propositions, clauses))
}

/// A name above each literal of the clause.
fn goal(b: &mut Builder, literals: &[u16], clause: &Clause) -> u16 {
    let goal = b.name();
    b.inclusions.extend(clause.iter().map(|&literal| [literals[literal], goal]));
    goal
}

/// For each id the conjunction of all others, from the conjunctions of the ids before and behind.
fn all_but_one(b: &mut Builder, ids: &[u16]) -> Vec<u16> {
    let mut before = vec![ids[0]];
    let mut behind = vec![ids[ids.len() - 1]];
    for k in 1..ids.len() {
        before.push(b.and(before[k - 1], ids[k]));
        behind.push(b.and(behind[k - 1], ids[ids.len() - 1 - k]));
    }
    let last = ids.len() - 1;
    let without = |k: usize, b: &mut Builder| match k {
        0 => behind[last - 1],
        _ if k == last => before[last - 1],
        _ => b.and(before[k - 1], behind[last - k - 1]),
    };
    (0..ids.len()).map(|k| without(k, b)).collect()
}

/// Random clauses over one variable a proposition, up to 8.
pub fn clauses_over_several(propositions: usize, count: usize, seed: u64) -> Hard {
    over_several(1, propositions, &random_clauses(&mut Random::new(seed), propositions, count))
}

/// Clauses over variables of `each` propositions: a name for each value of each of them. The
/// witnesses are one value of each together, so a variable takes at most one value of each;
/// literals are "some" of a role of the variable's own.
fn over_several(each: usize, propositions: usize, clauses: &[Clause]) -> Hard {
    let blanks = propositions / each;
    let mut b = Builder::default();
    let names = b.names(2 * each);
    let values = one_of_each_pair(&mut b, &names);
    let witnesses = b.witnesses(8, &values);
    let (mut literals, mut said) = (Vec::new(), Vec::new());
    for role in 0..blanks as u16 {
        let x = b.variable();
        let some_x = b.some(8, x);
        b.ask(witnesses, some_x);
        literals.extend(names.iter().map(|&name| b.some(role, name)));
        said.push(b.some(role, x));
    }
    let all_said = b.all(&said);
    let goals: Vec<u16> = clauses.iter().map(|clause| goal(&mut b, &literals, clause)).collect();
    let all_goals = b.all(&goals);
    b.ask(all_said, all_goals);
    let mut label = format!("{} clauses over {} blanks", clauses.len(), blanks);
    if each > 1 {
        label += &format!(", {} propositions", propositions);
    }
    hard(label, b, satisfiable(propositions, clauses))
}

/// The conjunctions of one id out of each pair, in every way.
fn one_of_each_pair(b: &mut Builder, ids: &[u16]) -> Vec<u16> {
    let mut chosen = ids[..2].to_vec();
    for pair in ids[2..].chunks_exact(2) {
        let mut longer = Vec::new();
        for &one in &chosen {
            longer.extend([b.and(one, pair[0]), b.and(one, pair[1])]);
        }
        chosen = longer;
    }
    chosen
}

/// A proposition for each edge. Each node has three; an even number of them is true, but at node 0
/// an odd number. Each edge has two ends, so this cannot be.
fn parity_clauses(nodes: usize, edges: &[(usize, usize)]) -> Vec<Clause> {
    let mut clauses = Vec::new();
    for node in 0..nodes {
        let ends_here = |&k: &usize| edges[k].0 == node || edges[k].1 == node;
        let three: Vec<usize> = (0..edges.len()).filter(ends_here).collect();
        for values in 0..8usize {
            if (values.count_ones() % 2 == 1) != (node == 0) {
                clauses.push([0, 1, 2].map(|k| 2 * three[k] + (values >> k & 1)));
            }
        }
    }
    clauses
}

/// Each of three nodes joined to each of three others: 9 propositions over one variable.
pub fn parity_over_one() -> Hard {
    let edges: Vec<(usize, usize)> = (0..9).map(|k| (k / 3, 3 + k % 3)).collect();
    let label = "parity over one blank, 9 propositions".to_string();
    Hard { label, ..over_one(9, &parity_clauses(6, &edges)) }
}

/// The edges of a cube: 12 propositions over 6 variables.
pub fn parity_over_several() -> Hard {
    let along = |axis: usize| (0..8).filter(move |node| node >> axis & 1 == 0);
    let edges: Vec<(usize, usize)> =
        (0..3).flat_map(|axis| along(axis).map(move |node| (node, node + (1 << axis)))).collect();
    let label = "parity over 6 blanks, 12 propositions".to_string();
    Hard { label, ..over_several(2, 12, &parity_clauses(8, &edges)) }
}

/// One variable a node: it takes at most one colour, since only the colours are witnesses, and
/// at least one, since a colour beside the marker gives the goal; an edge has the pairs of two
/// colours as witnesses.
fn colouring(label: String, nodes: usize, colours: usize, edges: &[(usize, usize)]) -> Hard {
    let mut b = Builder::default();
    let names = b.names(colours);
    let some_colour = coloured(&mut b, &names);
    let two = two_colours(&mut b, &names);
    let pairs = b.all(&two);
    let ends: Vec<(u16, u16)> = (0..nodes).map(|_| node(&mut b, some_colour)).collect();
    for &(from, to) in edges {
        let both = b.and(ends[from].0, ends[to].1);
        let some_both = b.some(2, both);
        b.ask(pairs, some_both);
    }
    hard(label, b, colourable(nodes, colours, edges))
}

/// Marker and goal: a colour beside the marker is below the goal.
fn coloured(b: &mut Builder, names: &[u16]) -> (u16, u16) {
    let (marker, goal) = (b.name(), b.name());
    for &colour in names {
        let marked = b.and(colour, marker);
        b.inclusions.push([marked, goal]);
    }
    (marker, goal)
}

/// A variable with at least one colour, as the first and as the second end of an edge.
fn node(b: &mut Builder, (marker, goal): (u16, u16)) -> (u16, u16) {
    let x = b.variable();
    let marked = b.and(x, marker);
    b.ask(marked, goal);
    (b.some(0, x), b.some(1, x))
}

/// "Some" of each colour beside all other colours.
fn one_and_the_others(b: &mut Builder, names: &[u16]) -> Vec<u16> {
    let others = all_but_one(b, names);
    let mut splits = Vec::new();
    for (&one, &rest) in names.iter().zip(&others) {
        let (first, second) = (b.some(0, one), b.some(1, rest));
        let both = b.and(first, second);
        splits.push(b.some(2, both));
    }
    splits
}

/// "Some" of each pair of two different colours.
fn two_colours(b: &mut Builder, names: &[u16]) -> Vec<u16> {
    let first: Vec<u16> = names.iter().map(|&name| b.some(0, name)).collect();
    let second: Vec<u16> = names.iter().map(|&name| b.some(1, name)).collect();
    let mut two = Vec::new();
    for (k, &one) in first.iter().enumerate() {
        for (_, &other) in second.iter().enumerate().filter(|&(other, _)| other != k) {
            let both = b.and(one, other);
            two.push(b.some(2, both));
        }
    }
    two
}

fn colourable(nodes: usize, colours: usize, edges: &[(usize, usize)]) -> Known {
    let colour = |number: usize, node: usize| number / colours.pow(node as u32) % colours;
    let right =
        |number: &usize| edges.iter().all(|&(a, b)| colour(*number, a) != colour(*number, b));
    match (0..colours.pow(nodes as u32)).find(right) {
        Some(_) => Known::Solvable,
        None => Known::Unsolvable,
    }
}

pub fn random_colouring(nodes: usize, colours: usize, edges: usize, seed: u64) -> Hard {
    let mut all = complete(nodes);
    Random::new(seed).shuffle(&mut all);
    all.truncate(edges);
    let label = format!("{} colours, {} nodes, {} edges", colours, nodes, edges);
    colouring(label, nodes, colours, &all)
}

/// One more pigeon than holes.
pub fn pigeons(holes: usize) -> Hard {
    let edges = complete(holes + 1);
    colouring(format!("{} pigeons, {} holes", holes + 1, holes), holes + 1, holes, &edges)
}

/// Pigeons in smaller tables, up to 8: the witnesses are one hole beside all others, so a pigeon
/// has one hole and the pigeons behind it do not have that one. One question for each pigeon says
/// so of all behind it.
pub fn lean_pigeons(pigeons: usize, holes: usize) -> Hard {
    let mut b = Builder::default();
    let names = b.names(holes);
    let some_hole = coloured(&mut b, &names);
    let splits = one_and_the_others(&mut b, &names);
    let witnesses = b.all(&splits);
    let ends: Vec<(u16, u16)> = (0..pigeons).map(|_| node(&mut b, some_hole)).collect();
    let mut behind = ends[pigeons - 1].1;
    for &(first, second) in ends[..pigeons - 1].iter().rev() {
        let together = b.and(first, behind);
        let some_together = b.some(2, together);
        b.ask(witnesses, some_together);
        behind = b.and(second, behind);
    }
    let known = if pigeons > holes { Known::Unsolvable } else { Known::Solvable };
    hard(format!("{} pigeons, {} holes, lean", pigeons, holes), b, known)
}

fn complete(nodes: usize) -> Vec<(usize, usize)> {
    (0..nodes).flat_map(|to| (0..to).map(move |from| (from, to))).collect()
}

/// The same with 32 role pairs and the same answer: what the pairs cost.
fn with_role_pairs(problem: Hard) -> Hard {
    let tables = generate::spread_roles(&mut Random::new(1), &problem.tables);
    Hard { label: format!("{}, 32 role pairs", problem.label), tables, ..problem }
}

/// Problems in which roles stand, with 32 role pairs each.
pub fn spread_over_roles(seed: u64) -> Vec<Hard> {
    let problems = vec![
        random_at_the_limits(seed),
        solvable_at_the_limits(seed),
        clauses_over_one(6, 26, seed),
        clauses_over_several(8, 24, seed),
        random_colouring(8, 3, 16, seed),
        pigeons(5),
    ];
    problems.into_iter().map(with_role_pairs).collect()
}

/// Families whose harmless atoms double the subsets and nothing else, for one K up to 60.
pub fn with_harmless(k: usize) -> Vec<Hard> {
    vec![
        needed_and_forbidden(k),
        only_atom_0(k),
        not_together(k),
        small_core(k),
        conflict_in_the_last(k, 3),
        conflict_in_the_last(k, MAX_VARIABLES),
        idle_variable(k, false),
        idle_variable(k, true),
    ]
}

pub fn at_the_limits(seed: u64) -> Vec<Hard> {
    vec![random_at_the_limits(seed), solvable_at_the_limits(seed)]
}

/// Puzzles at small size.
pub fn puzzles(seed: u64) -> Vec<Hard> {
    vec![
        clauses_over_one(4, 8, seed),
        clauses_over_one(4, 20, seed),
        clauses_over_several(4, 8, seed),
        clauses_over_several(4, 20, seed),
        over_several(2, 4, &random_clauses(&mut Random::new(seed), 4, 12)),
        random_colouring(4, 3, 5, seed),
        random_colouring(5, 3, 9, seed),
        pigeons(2),
        pigeons(3),
        lean_pigeons(3, 3),
        lean_pigeons(4, 3),
    ]
}

/// Random puzzles at the size that the tables have room for. Clauses are hardest where about half
/// of them have a solution: there, one of each kind.
pub fn large_random_puzzles(seed: u64) -> Vec<Hard> {
    let solvable = |propositions| clauses_with(Known::Solvable, propositions, 32, seed);
    let unsolvable = |propositions| clauses_with(Known::Unsolvable, propositions, 32, seed);
    vec![
        clauses_over_one(6, 26, seed),
        clauses_over_one(7, 28, seed),
        over_one(8, &solvable(8)),
        over_one(8, &unsolvable(8)),
        clauses_over_one(10, 31, seed),
        clauses_over_several(6, 32, seed),
        clauses_over_several(8, 24, seed),
        over_several(1, 8, &solvable(8)),
        over_several(1, 8, &unsolvable(8)),
        over_several(2, 10, &unsolvable(10)),
        over_several(2, 14, &solvable(14)),
        random_colouring(8, 3, 16, seed),
        random_colouring(8, 4, 24, seed),
    ]
}

/// Puzzles at full size that are not random.
pub fn large_fixed_puzzles() -> Vec<Hard> {
    vec![
        parity_over_one(),
        parity_over_several(),
        pigeons(4),
        pigeons(5),
        pigeons(6),
        lean_pigeons(8, 8),
    ]
}

/// The one with the most conflicts: few of them can be told from two pairs alone.
pub fn hardest_pigeons() -> Hard {
    lean_pigeons(8, 7)
}

/// The tables with an easy card beside them, if there is room: a blank of its own, wanted below a new
/// name, and the place of its question.
pub fn with_easy_card(tables: &Tables) -> Option<(Tables, u16)> {
    let mut both = tables.clone();
    let (name, variable) = (tables.concept_count() as u16, tables.variables);
    let place = tables.questions.len() as u16 / 2;
    both.variables += 1;
    both.concepts.extend([1, MAX_NAME, 0, 4, variable, 0]);
    both.questions.extend([name + 1, name]);
    reference::check(&both).is_ok().then_some((both, place))
}
