//! Random tables of many shapes that the checks accept, role pairs for them, copies pasted into
//! them, interpretations, and random cases around all of these.

use std::collections::BTreeSet;

use crate::damage;
use crate::limits::*;
use crate::orders;
use crate::random::{Random, Size};
use crate::reference::{self, atoms, countermodel, groups, matching};
use crate::semantics::signature;
use crate::settings::{all_atoms, Settings};
use crate::shift::{held_marks, held_table, told};
use crate::tables::{Case, Stock, Tables};

/// Which pairs the inclusions prefer.
#[derive(Clone, Copy, Debug, PartialEq, Eq)]
enum Style {
    Any,
    Path,
    Ring,
    Rising,
    Falling,
    Looping,
}

/// What a random table is to look like.
struct Shape {
    concepts: usize,
    inclusions: usize,
    questions: usize,
    variables: usize,
    names: Vec<u16>,
    roles: Vec<u16>,
    role_pairs: usize,
    /// Weights of top, name, existential, conjunction, variable.
    weights: [usize; 5],
    /// Inner ids close below their own make deep chains.
    deep: bool,
    /// Variables at the lowest ids choose atoms of higher ids.
    variables_first: bool,
    /// Chance in percent that a row repeats an earlier one and is its twin, or nearly so.
    twins: usize,
    style: Style,
}

const WEIGHTS: [[usize; 5]; 5] = [
    [5, 30, 25, 30, 10],
    [5, 15, 60, 15, 5],
    [2, 15, 10, 65, 8],
    [2, 20, 30, 20, 28],
    [10, 60, 10, 10, 10],
];

const STYLES: [Style; 6] =
    [Style::Any, Style::Path, Style::Ring, Style::Rising, Style::Falling, Style::Looping];

/// Numbers of concepts, inclusions and questions.
fn counts(random: &mut Random, size: Size) -> (usize, usize, usize) {
    match size {
        Size::Small => {
            let concepts = random.between(0, 14);
            (concepts, random.below(2 + 2 * concepts / 3), random.below(5))
        }
        Size::Medium => (random.between(8, 60), random.below(33), random.below(17)),
        Size::Large => {
            let concepts = *random.pick(&[150, 180, 191, 192, 192]);
            let inclusions = *random.pick(&[20, 48, 80, 95, 96, 96]);
            (concepts, inclusions, *random.pick(&[0, 31, 32]))
        }
    }
}

fn shape(random: &mut Random, size: Size) -> Shape {
    let (names, roles, variables) = match size {
        Size::Small => (6, 3, 3),
        Size::Medium => (20, 5, MAX_VARIABLES),
        Size::Large => (60, 8, MAX_VARIABLES),
    };
    let (concepts, inclusions, questions) = counts(random, size);
    let role_pairs = role_pairs(random, size);
    Shape {
        concepts,
        inclusions,
        questions,
        variables: random.between(0, variables),
        names: numbers(random, 1, names, MAX_NAME),
        roles: numbers(random, if role_pairs > 0 { 2 } else { 1 }, roles, MAX_ROLE),
        role_pairs,
        weights: *random.pick(if role_pairs > 0 { &WEIGHTS[..4] } else { &WEIGHTS[..] }),
        deep: random.percent(25),
        variables_first: random.percent(30),
        twins: *random.pick(&[0, 0, 10, 50]),
        style: *random.pick(&STYLES),
    }
}

/// How many, in more than half of the tables.
fn role_pairs(random: &mut Random, size: Size) -> usize {
    let most = match size {
        Size::Small => 5,
        Size::Medium => 14,
        Size::Large => MAX_ROLE_PAIRS,
    };
    match random.below(10) {
        0..=3 => 0,
        4 => most,
        _ => random.between(1, most),
    }
}

/// From `least` to `most` numbers up to `last`, with both ends of the range often among them.
fn numbers(random: &mut Random, least: usize, most: usize, last: u16) -> Vec<u16> {
    let count = random.between(least, most);
    let number = |random: &mut Random| match random.below(8) {
        0 => 0,
        1 => last,
        _ => random.below(usize::from(last) + 1) as u16,
    };
    (0..count).map(|_| number(random)).collect()
}

/// Tables that the checks accept.
pub fn valid(random: &mut Random, size: Size) -> Tables {
    let shape = shape(random, size);
    let mut rows: Vec<[u16; 3]> = Vec::new();
    while rows.len() < shape.concepts {
        let row = concept(random, &shape, &rows);
        rows.push(row);
    }
    let mut tables = Tables::new(&rows, &[], &[], shape.variables as u16);
    add_inclusions(random, &shape, &mut tables);
    add_questions(random, &shape, &mut tables);
    if shape.role_pairs > 0 {
        add_role_pairs(random, shape.role_pairs, &mut tables);
    }
    tables
}

/// How role pairs hang together.
#[derive(Clone, Copy, Debug, PartialEq, Eq)]
enum Hierarchy {
    Any,
    Chain,
    Circle,
    ManyToOne,
    OneToMany,
}

const HIERARCHIES: [Hierarchy; 5] = [
    Hierarchy::Any,
    Hierarchy::Chain,
    Hierarchy::Circle,
    Hierarchy::ManyToOne,
    Hierarchy::OneToMany,
];

/// So many role pairs more, in any order, over the roles of the entries and now and then another;
/// some are equal or repeated.
pub fn add_role_pairs(random: &mut Random, count: usize, tables: &mut Tables) {
    let is_existential = |&id: &usize| tables.row(id)[0] == 2;
    let rows = (0..tables.concept_count()).filter(is_existential);
    let mut used: Vec<u16> = rows.map(|id| tables.row(id)[1]).collect();
    used.sort_unstable();
    used.dedup();
    random.shuffle(&mut used);
    // a chain meets each role of the entries once before it meets one again
    let role = |random: &mut Random, k: usize| match used.len() {
        0 => random.below(usize::from(MAX_ROLE) + 1) as u16,
        _ if random.percent(20) => random.below(usize::from(MAX_ROLE) + 1) as u16,
        known => used[k % known],
    };
    let line: Vec<u16> = (0..=count).map(|k| role(random, k)).collect();
    let hierarchy = *random.pick(&HIERARCHIES);
    let pair = |random: &mut Random, k: usize| match hierarchy {
        Hierarchy::Any => [*random.pick(&line), *random.pick(&line)],
        Hierarchy::Chain => [line[k], line[k + 1]],
        Hierarchy::Circle => [line[k], line[(k + 1) % count]],
        Hierarchy::ManyToOne => [line[k], line[count]],
        Hierarchy::OneToMany => [line[count], line[k]],
    };
    let mut pairs: Vec<[u16; 2]> = (0..count).map(|k| pair(random, k)).collect();
    if random.percent(25) {
        let (at, again) = (random.below(count), random.below(count));
        let equal = [pairs[at][0]; 2];
        pairs[at] = if random.percent(50) { pairs[again] } else { equal };
    }
    match random.below(3) {
        0 => pairs.reverse(),
        1 => random.shuffle(&mut pairs),
        _ => {}
    }
    tables.roles.extend(pairs.concat());
}

/// Role pairs that change no answer: each role of tables without any is spread over a circle of
/// roles, which count as one another, and each "some" gets one of its circle. 32 pairs in all.
/// Ids that were twins may be so no more.
pub fn spread_roles(random: &mut Random, tables: &Tables) -> Tables {
    assert!(tables.roles.is_empty(), "role pairs already:\n{}", tables);
    let rows: Vec<usize> =
        (0..tables.concept_count()).filter(|&id| tables.row(id)[0] == 2).collect();
    let used: BTreeSet<u16> = rows.iter().map(|&id| tables.row(id)[1]).collect();
    assert!(used.len() <= MAX_ROLE_PAIRS, "too many roles:\n{}", tables);
    let mut circles: Vec<Vec<u16>> = used.iter().map(|&role| vec![role]).collect();
    let others: Vec<u16> = (0..=MAX_ROLE).filter(|role| !used.contains(role)).collect();
    if circles.is_empty() {
        circles.push(Vec::new());
    }
    let known = circles.len();
    for (k, &role) in others[..MAX_ROLE_PAIRS - used.len()].iter().enumerate() {
        circles[k % known].push(role);
    }
    let mut spread = tables.clone();
    for id in rows {
        let circle = circles.iter().find(|circle| circle[0] == tables.row(id)[1]);
        spread.concepts[3 * id + 1] = *random.pick(circle.expect("each role has a circle"));
    }
    let mut pairs = Vec::new();
    for circle in &circles {
        pairs.extend((0..circle.len()).map(|k| [circle[k], circle[(k + 1) % circle.len()]]));
    }
    random.shuffle(&mut pairs);
    spread.with_roles(&pairs)
}

fn concept(random: &mut Random, shape: &Shape, earlier: &[[u16; 3]]) -> [u16; 3] {
    let id = earlier.len();
    if shape.variables_first && id < shape.variables {
        return [4, id as u16, 0];
    }
    if id > 0 && random.percent(shape.twins) {
        let row = *random.pick(earlier);
        return nearly(random, row, id);
    }
    match weighted(random, &shape.weights) {
        0 => [0, 0, 0],
        2 if id > 0 => existential(random, shape, earlier),
        3 if id > 0 => [3, inner(random, shape, id), inner(random, shape, id)],
        4 if shape.variables > 0 => [4, random.below(shape.variables) as u16, 0],
        _ => [1, *random.pick(&shape.names), 0],
    }
}

/// With role pairs mostly over the inner id of an earlier one, so that the roles decide.
fn existential(random: &mut Random, shape: &Shape, earlier: &[[u16; 3]]) -> [u16; 3] {
    let role = *random.pick(&shape.roles);
    let others: Vec<&[u16; 3]> = earlier.iter().filter(|row| row[0] == 2).collect();
    if shape.role_pairs > 0 && !others.is_empty() && random.percent(60) {
        return [2, role, random.pick(&others)[2]];
    }
    [2, role, inner(random, shape, earlier.len())]
}

/// The row again, or one that is easily taken for its twin: "and" the other way round, or "some" of
/// the entry before, which may be such an "and".
fn nearly(random: &mut Random, row: [u16; 3], id: usize) -> [u16; 3] {
    match row {
        [3, first, second] if random.percent(30) => [3, second, first],
        [2, role, _] if random.percent(30) => [2, role, id as u16 - 1],
        row => row,
    }
}

fn weighted(random: &mut Random, weights: &[usize; 5]) -> usize {
    let mut rest = random.below(weights.iter().sum());
    for (kind, &weight) in weights.iter().enumerate() {
        if rest < weight {
            return kind;
        }
        rest -= weight;
    }
    unreachable!("the rest is below the sum of the weights")
}

fn inner(random: &mut Random, shape: &Shape, id: usize) -> u16 {
    let back = if shape.deep && random.percent(80) {
        1 + random.below(id.min(2))
    } else {
        1 + random.below(id)
    };
    (id - back) as u16
}

/// Ids with and without variables.
fn split(tables: &Tables) -> (Vec<usize>, Vec<usize>) {
    let pattern = atoms::patterns(tables);
    (0..tables.concept_count()).partition(|&id| pattern[id])
}

/// Adds an inclusion unless that would bring more than 64 atoms.
fn add_inclusion(tables: &mut Tables, (left, right): (usize, usize)) {
    let before = tables.inclusions.len();
    tables.inclusions.extend([left as u16, right as u16]);
    if atoms::list(tables).len() > MAX_ATOMS {
        tables.inclusions.truncate(before);
    }
}

/// Adds a question unless that would bring more than 64 atoms.
fn add_question(tables: &mut Tables, (left, right): (usize, usize)) {
    let before = tables.questions.len();
    tables.questions.extend([left as u16, right as u16]);
    if atoms::list(tables).len() > MAX_ATOMS {
        tables.questions.truncate(before);
    }
}

fn add_inclusions(random: &mut Random, shape: &Shape, tables: &mut Tables) {
    let (_, ground) = split(tables);
    if ground.is_empty() {
        return;
    }
    let mut order = ground.clone();
    random.shuffle(&mut order);
    order.truncate(shape.inclusions.max(1));
    // half as many tries again, since pairs with too many atoms are left out
    for k in 0..shape.inclusions * 3 / 2 {
        if tables.inclusions.len() / 2 < shape.inclusions {
            let pair = inclusion(random, shape.style, tables, &ground, &order, k);
            add_inclusion(tables, pair);
        }
    }
}

fn inclusion(
    random: &mut Random,
    style: Style,
    tables: &Tables,
    ground: &[usize],
    order: &[usize],
    k: usize,
) -> (usize, usize) {
    let (mut a, b) = (*random.pick(ground), *random.pick(ground));
    // all is below what top is below: more than a few of these leave nothing to tell apart
    if tables.row(a)[0] == 0 && random.percent(90) {
        a = *random.pick(ground);
    }
    match style {
        Style::Any => (a, b),
        Style::Path if k + 1 < order.len() => (order[k], order[k + 1]),
        // one inclusion more would close the ring
        Style::Path => (order[0], order[order.len() / 2]),
        Style::Ring => (order[k % order.len()], order[(k + 1) % order.len()]),
        Style::Rising => (a.min(b), a.max(b)),
        Style::Falling => (a.max(b), a.min(b)),
        // as 01's card K: something below "some" of itself, or the reverse
        Style::Looping => match tables.row(a) {
            [2, _, inner] if k % 3 > 0 => (usize::from(inner), a),
            [2, _, inner] => (a, usize::from(inner)),
            _ => (a, b),
        },
    }
}

fn add_questions(random: &mut Random, shape: &Shape, tables: &mut Tables) {
    let (patterns, ground) = split(tables);
    if ground.is_empty() {
        return;
    }
    for _ in 0..shape.questions {
        let side = *random.pick(&ground);
        let other = if patterns.is_empty() || random.percent(20) {
            *random.pick(&ground)
        } else {
            *random.pick(&patterns)
        };
        let pair = if random.percent(50) { (side, other) } else { (other, side) };
        add_question(tables, pair);
    }
}

/// 192 concepts: variables, 64 names and existentials without variables (ids 8 to 71), no two of
/// them twins, and existentials and conjunctions over all of these.
fn full_rows(random: &mut Random) -> Vec<[u16; 3]> {
    let mut rows: Vec<[u16; 3]> = (0..8).map(|variable| [4, variable, 0]).collect();
    while rows.len() < 72 {
        let id = rows.len();
        let row = if id > 8 && random.percent(50) {
            [2, random.below(3) as u16, random.between(8, id - 1) as u16]
        } else {
            [1, MAX_NAME - id as u16, 0]
        };
        // a row that is there already would be a twin, and there would be fewer than 64 atoms
        if !rows.contains(&row) {
            rows.push(row);
        }
    }
    while rows.len() < MAX_CONCEPTS {
        let (a, b) = (random.below(rows.len()) as u16, random.below(rows.len()) as u16);
        let existential = random.percent(30);
        rows.push(if existential { [2, random.below(3) as u16, a] } else { [3, a, b] });
    }
    rows
}

/// Tables at every limit at once: 192 concepts, 96 inclusions, 32 questions, 8 variables and
/// exactly 64 atoms; without role pairs, which can be added.
pub fn full(random: &mut Random) -> Tables {
    let mut tables = Tables::new(&full_rows(random), &[], &[], 8);
    for k in 0..32 {
        add_inclusion(&mut tables, (8 + 2 * k, 9 + 2 * k));
    }
    let rising = random.percent(60);
    while tables.inclusions.len() < 2 * MAX_INCLUSIONS {
        let (a, b) = (random.between(8, 71), random.between(8, 71));
        add_inclusion(&mut tables, if rising { (a.min(b), a.max(b)) } else { (a, b) });
    }
    let (patterns, _) = split(&tables);
    while tables.questions.len() < 2 * MAX_QUESTIONS {
        let (pattern, atom) = (*random.pick(&patterns), random.between(8, 71));
        let left = random.percent(50);
        add_question(&mut tables, if left { (pattern, atom) } else { (atom, pattern) });
    }
    tables
}

/// Tables with few questions and up to `most` pairs (variable, position), one at least. Most that
/// the empty assignment solves are left out, since they would be the greater part.
pub fn tiny(random: &mut Random, most: usize) -> Tables {
    loop {
        let mut tables = valid(random, Size::Small);
        tables.questions.truncate(2 * random.between(1, 4));
        let choices = matching::choices(&tables);
        if choices == 0 || choices > most || tables.questions.is_empty() {
            continue;
        }
        let nothing = vec![0; usize::from(tables.variables)];
        if random.percent(10) || !matching::solves(&tables, &nothing) {
            return tables;
        }
    }
}

/// Pastes up to `most` copies of rows under new ids behind the others, some over copies of their
/// inner ids, and then names any twin in the place of each id of the inclusions and questions.
/// Many lowest twins so stand nowhere any more. The atoms, and the first solution, stay the same.
pub fn paste_copies(random: &mut Random, tables: &mut Tables, most: usize) {
    let count = tables.concept_count();
    // for each id the id that it is a copy of, and for each of those all its copies
    let mut original: Vec<usize> = (0..count).collect();
    let mut copies: Vec<Vec<u16>> = (0..count as u16).map(|id| vec![id]).collect();
    let room = MAX_CONCEPTS.saturating_sub(count).min(most);
    for _ in 0..if count == 0 { 0 } else { room } {
        let id = random.below(tables.concept_count());
        let mut other = |inner: u16| *random.pick(&copies[original[usize::from(inner)]]);
        let row = match tables.row(id) {
            [2, role, inner] => [2, role, other(inner)],
            [3, first, second] => [3, other(first), other(second)],
            row => row,
        };
        copies[original[id]].push(tables.concept_count() as u16);
        original.push(original[id]);
        tables.concepts.extend(row);
    }
    for id in tables.inclusions.iter_mut().chain(&mut tables.questions) {
        *id = *random.pick(&copies[usize::from(*id)]);
    }
}

/// An assignment that check 9 accepts, for accepted tables.
pub fn assignment(random: &mut Random, tables: &Tables) -> Vec<u64> {
    let count = atoms::list(tables).len();
    let all = if count == 0 { 0 } else { u64::MAX >> (64 - count) };
    let choice = |random: &mut Random| match random.below(5) {
        0 => 0,
        1 => all,
        2 => 1 << random.below(count.max(1)),
        3 => random.number() & random.number() & random.number(),
        _ => random.number(),
    };
    (0..tables.variables).map(|_| choice(random) & all).collect()
}

/// Settings that check 19 accepts, for accepted tables.
pub fn settings(random: &mut Random, tables: &Tables) -> Settings {
    let all = all_atoms(tables);
    let permitted = |random: &mut Random| match random.below(6) {
        0 => 0,
        1 | 2 => all,
        3 => random.number() & all,
        4 => (random.number() | random.number() | random.number()) & all,
        _ => all & !(1 << random.below(64)),
    };
    let largest = |random: &mut Random| match random.below(6) {
        0 => MAX_ATOMS as u16,
        1 => random.below(MAX_ATOMS + 1) as u16,
        2 => all.count_ones() as u16,
        _ => random.below(4) as u16,
    };
    let both = |_| (permitted(random), largest(random));
    let (permitted, largest) = (0..tables.variables).map(both).unzip();
    Settings { permitted, largest }
}

/// A random case, some with copies pasted in: most are accepted, the others are damaged in the
/// tables, the assignment, the pair or the buffers, or in several of them.
pub fn case(random: &mut Random, size: Size) -> Case {
    let at_limits = size == Size::Large && random.percent(30);
    let mut tables = if at_limits { full(random) } else { valid(random, size) };
    if at_limits && random.percent(60) {
        add_role_pairs(random, MAX_ROLE_PAIRS, &mut tables);
    }
    if random.percent(25) {
        let most = random.between(1, 12);
        paste_copies(random, &mut tables, most);
    }
    let choices = assignment(random, &tables);
    if random.percent(40) {
        damage::tables(random, &mut tables);
    }
    let mut case = Case::new(tables, &choices);
    case.pair = pair(random, &case.tables);
    case.atom_room = room(random, case.atom_room);
    case.table_room = room(random, case.table_room);
    if random.percent(15) {
        damage::assignment(random, &mut case.assignment);
    }
    case
}

/// A random case for matching within settings, with fewer questions, so that both answers are
/// frequent. Now and then the settings are damaged.
pub fn within_case(random: &mut Random, size: Size) -> Case {
    let mut case = case(random, size);
    case.tables.questions.truncate(2 * random.between(0, 6));
    if reference::check(&case.tables).is_ok() {
        case.settings = settings(random, &case.tables);
    }
    if random.percent(15) {
        damage::settings(random, &mut case.settings);
    }
    case.match_room = room(random, usize::from(case.tables.variables).min(20));
    case
}

/// Accepted tables with some questions, mostly of several groups.
pub fn grouped(random: &mut Random, size: Size) -> Tables {
    loop {
        let mut tables = valid(random, size);
        let most = *random.pick(&[3, 6, 12]);
        tables.questions.truncate(2 * random.between(1, most));
        let groups = groups::all(&tables).len();
        if groups > 1 || (groups == 1 && random.percent(5)) {
            return tables;
        }
    }
}

/// A random case for matching one group within settings. Now and then it is damaged.
pub fn group_case(random: &mut Random, size: Size) -> Case {
    let mut tables = grouped(random, size);
    let settings = settings(random, &tables);
    if random.percent(25) {
        damage::tables(random, &mut tables);
    }
    let mut case = Case::new(tables, &[]);
    case.settings = settings;
    if random.percent(10) {
        damage::settings(random, &mut case.settings);
    }
    case.question = below_or_not(random, case.tables.questions.len() / 2);
    case.match_room = room(random, usize::from(case.tables.variables).min(20));
    case
}

/// Two ids, now and then one that is no concept.
pub fn pair(random: &mut Random, tables: &Tables) -> (u16, u16) {
    let count = tables.concept_count();
    (below_or_not(random, count), below_or_not(random, count))
}

/// A number below the count, or now and then one that is not.
fn below_or_not(random: &mut Random, count: usize) -> u16 {
    if count == 0 || random.percent(5) {
        *random.pick(&[count as u16, 192, 65535])
    } else {
        random.below(count) as u16
    }
}

/// A random case for showing an interpretation: where one can be shown, the pair mostly fails, and
/// the buffer is as long as wanted, or longer, or now and then shorter.
pub fn show_case(random: &mut Random, size: Size) -> Case {
    let mut case = case(random, size);
    if reference::accepts(&case) {
        let relation = reference::relation(&case.tables, &case.assignment);
        let failing = failing_pairs(&relation);
        if !failing.is_empty() && random.percent(70) {
            case.pair = *random.pick(&failing);
        }
        let rows = countermodel::shown_rows(&case.tables, &relation);
        case.row_room = room(random, rows.len());
    }
    case
}

/// Row i, column j of the relation: i is subsumed by j. The pairs that are not.
pub fn failing_pairs(relation: &[Vec<bool>]) -> Vec<(u16, u16)> {
    let of_row = |(i, row): (usize, &Vec<bool>)| {
        let fails = (0..row.len()).filter(|&j| !row[j]);
        fails.map(|j| (i as u16, j as u16)).collect::<Vec<_>>()
    };
    relation.iter().enumerate().flat_map(of_row).collect()
}

/// One of the pairs that fail under an assignment, if there is one. All must be accepted.
pub fn failing_pair(
    random: &mut Random,
    tables: &Tables,
    assignment: &[u64],
) -> Option<(u16, u16)> {
    let pairs = failing_pairs(&reference::relation(tables, assignment));
    (!pairs.is_empty()).then(|| *random.pick(&pairs))
}

/// A random case for membership: an interpretation at random, or one that obeys the tables and lost
/// some of its rows, and a concept and an element. Now and then the interpretation is damaged.
pub fn belongs_case(random: &mut Random, size: Size) -> Case {
    let mut case = case(random, size);
    let modelled = case.tables.concept_count() > 0 && random.percent(50);
    case.stock = if modelled && reference::accepts(&case) {
        thinned_model(random, &case)
    } else {
        stock(random, &case.tables, size)
    };
    let (concepts, elements) = (case.tables.concept_count(), usize::from(case.stock.size));
    case.asked = (below_or_not(random, concepts), below_or_not(random, elements));
    if random.percent(15) {
        damage::stock(random, &mut case.stock);
    }
    case
}

/// Rows that an interpretation at random has at most.
const MANY_ROWS: usize = 12_000;

/// The interpretation that is shown for the tables, without some of its rows.
fn thinned_model(random: &mut Random, case: &Case) -> Stock {
    let relation = reference::relation(&case.tables, &case.assignment);
    let size = case.tables.concept_count() as u16;
    let rows = countermodel::shown_rows(&case.tables, &relation);
    let kept = *random.pick(&[60, 90, 98, 100]);
    let mut rows: Vec<[u16; 4]> = Stock { size, rows }.split().collect();
    rows.retain(|_| random.percent(kept));
    mix(random, &mut rows);
    rows.truncate(MANY_ROWS);
    Stock::new(size, &rows)
}

/// An interpretation at random over the names and roles of the tables, damaged or not, and others
/// that are easily taken for these, past the tables' ranges too.
pub fn stock(random: &mut Random, tables: &Tables, size: Size) -> Stock {
    let (names, roles) = signature(tables);
    let elements = match size {
        Size::Small => random.between(1, 6),
        Size::Medium => random.between(1, 40),
        Size::Large => *random.pick(&[100, 150, 191, 192, 192]),
    };
    let each = *random.pick(&[2, 8, 30]);
    let count = random.below(1 + each * elements);
    let named = *random.pick(&[20, 50, 80]);
    let row = |random: &mut Random| {
        let (x, y) = (random.below(elements) as u16, random.below(elements) as u16);
        if random.percent(named) {
            [0, x, symbol(random, &names), 0]
        } else {
            [1, x, symbol(random, &roles), y]
        }
    };
    let mut rows: Vec<[u16; 4]> = (0..count).map(|_| row(random)).collect();
    mix(random, &mut rows);
    Stock::new(elements as u16, &rows)
}

/// One of these, or now and then another number.
fn symbol(random: &mut Random, known: &[u16]) -> u16 {
    let one = *random.pick(known);
    match random.below(20) {
        0 => one.wrapping_add(*random.pick(&[1, 100, 128, 256, 1000, 1024, 4096, 32768])),
        1 => random.number() as u16,
        _ => one,
    }
}

/// Any order, and some rows again.
pub fn mix<const N: usize>(random: &mut Random, rows: &mut Vec<[u16; N]>) {
    if !rows.is_empty() {
        let again: Vec<[u16; N]> =
            (0..random.below(1 + rows.len() / 4)).map(|_| *random.pick(rows)).collect();
        rows.extend(again);
    }
    random.shuffle(rows);
}

/// A random case for updating a held table. Now and then the told pairs are damaged.
pub fn update_case(random: &mut Random, size: Size) -> Case {
    let mut case = case(random, size);
    let tables = &case.tables;
    let mut marks = Vec::new();
    if reference::check(tables).is_ok() {
        let chosen = atoms::chosen(tables, &assignment(random, tables));
        marks = held_marks(random, tables, &chosen);
        case.told = told(random, &chosen);
    }
    if random.percent(15) {
        damage::told(random, &case.tables, &mut case.told);
    }
    case.held = held_table(random, &marks, case.table_room);
    case
}

/// A random case for new ids. In most accepted ones inner ids stay smaller; now and then the list is
/// damaged.
pub fn renumber_case(random: &mut Random, size: Size) -> Case {
    let mut case = case(random, size);
    if reference::check(&case.tables).is_ok() {
        match random.below(10) {
            0 => {}
            1 => case.order = orders::involution(random, &case.tables),
            2 => random.shuffle(&mut case.order),
            _ => case.order = orders::rising(random, &case.tables),
        }
    }
    if random.percent(25) {
        damage::order(random, &case.tables, &mut case.order);
    }
    case.renumbered_rooms = case.renumbered_rooms.map(|wanted| room(random, wanted));
    case
}

/// As long as wanted, longer, or now and then shorter.
fn room(random: &mut Random, wanted: usize) -> usize {
    match random.below(10) {
        0 => wanted.saturating_sub(1),
        1 => random.below(wanted + 1),
        2..=5 => wanted,
        _ => wanted + random.below(100),
    }
}

/// All pairs of a small table, or `most` of a large one.
pub fn pairs(random: &mut Random, tables: &Tables, most: usize) -> Vec<(u16, u16)> {
    let count = tables.concept_count() as u16;
    if usize::from(count).pow(2) <= most {
        let of_left = |left| (0..count).map(move |right| (left, right));
        return (0..count).flat_map(of_left).collect();
    }
    let mut some = BTreeSet::new();
    while some.len() < most {
        let id = |random: &mut Random| random.below(usize::from(count)) as u16;
        some.insert((id(random), id(random)));
    }
    some.into_iter().collect()
}
