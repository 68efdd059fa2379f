//! hc_match on problems that need a search, each answer bit for bit: planted assignments, problems
//! about half of which have a solution, at the limits and in towers of existentials. How many of
//! each kind there were is printed and held to shares.

use hermitcasket_tests::compare;
use hermitcasket_tests::generate;
use hermitcasket_tests::limits::*;
use hermitcasket_tests::planted::{self, Shape};
use hermitcasket_tests::random::{cases, seed, Random, Size};
use hermitcasket_tests::reference::{atoms, matching, Refusal};
use hermitcasket_tests::tables::{Case, Tables};
use hermitcasket_tests::tally::Tally;

/// Both answers are frequent, and the reference tries more than one assignment after the empty one.
const BOTH: &[(&str, std::ops::RangeInclusive<usize>)] =
    &[("filled", 20..=80), ("none", 20..=80), ("tried", 90..=100)];

fn expect(tables: &Tables, first: Option<Vec<u64>>) {
    let none = Refusal { number: 10, place: 0 };
    compare::find_expecting(&Case::new(tables.clone(), &[]), first.ok_or(none));
}

/// The library's answer is the reference's, which solves; what kind of case this was.
fn agree(tables: &Tables, tally: &mut Tally) {
    let (first, effort) = matching::first_solution_with_effort(tables);
    tally.case();
    tally.note("filled", first.is_some());
    tally.note("none", first.is_none());
    tally.note("tried", effort.tried > 2);
    tally.note("taken back", effort.conflicts > 0);
    if let Some(assignment) = &first {
        assert!(matching::solves(tables, assignment), "{:?} for\n{}", assignment, tables);
    }
    expect(tables, first);
}

fn problems(seed: u64, shape: Shape, count: usize) -> Vec<Tables> {
    let one = |k| planted::problem(&mut Random::for_case(seed, k), shape);
    (0..count.max(1)).map(one).collect()
}

/// The search of the reference is right where it has to search: every assignment tried in order.
#[test]
fn tiny_problems_against_brute_force() {
    let seed = seed("search, tiny");
    for (shape, variables) in planted::TINY.into_iter().zip([1, 2]) {
        let mut tally = Tally::new(&format!("search, tiny, variables {}", variables));
        for tables in problems(seed, shape, cases(Size::Large) / 8) {
            agree(&tables, &mut tally);
            expect(&tables, matching::brute_force(&tables));
        }
        tally.finish(BOTH);
    }
}

/// Never none.
#[test]
fn planted_assignments() {
    let seed = seed("search, planted");
    let mut tally = Tally::new("search, planted");
    for shape in [planted::MEDIUM, planted::FULL[0], planted::FULL[1], planted::FULL[2]] {
        for tables in problems(seed, shape.planted(), cases(Size::Large) / 15) {
            agree(&tables, &mut tally);
        }
    }
    tally.finish(&[("filled", 100..=100), ("tried", 90..=100), ("taken back", 20..=100)]);
}

#[test]
fn about_half_solvable() {
    let seed = seed("search, half");
    let mut tally = Tally::new("search, half");
    for tables in problems(seed, planted::MEDIUM, cases(Size::Large) / 3) {
        agree(&tables, &mut tally);
    }
    tally.finish(&[BOTH, &[("taken back", 10..=100)]].concat());
}

/// 192 concepts, 96 inclusions, 32 questions, 64 atoms, and one, three or eight variables.
#[test]
fn about_half_solvable_at_the_limits() {
    let seed = seed("search, limits");
    for (shape, variables) in planted::FULL.into_iter().zip([1, 3, 8]) {
        let mut tally = Tally::new(&format!("search, limits, variables {}", variables));
        let problems = problems(seed, shape, cases(Size::Large) / 10);
        for (k, tables) in problems.into_iter().enumerate() {
            let tables = planted::fill_up(&mut Random::for_case(seed, k), tables);
            assert_eq!(tables.concept_count(), MAX_CONCEPTS);
            assert_eq!(tables.inclusion_pairs().len(), MAX_INCLUSIONS);
            assert_eq!(tables.question_pairs().len(), MAX_QUESTIONS);
            assert_eq!(atoms::list(&tables).len(), MAX_ATOMS);
            assert_eq!(tables.variables, variables);
            agree(&tables, &mut tally);
        }
        tally.finish(&[BOTH, &[("taken back", 10..=100)]].concat());
    }
}

/// Any tables at the limits, with as many questions as about half of them have a solution for.
/// Here the first choices mostly tell.
#[test]
fn open_questions_at_the_limits() {
    let seed = seed("search, open questions");
    let mut tally = Tally::new("search, open questions");
    for k in 0..(cases(Size::Large) / 8).max(1) {
        let mut random = Random::for_case(seed, k);
        let tables = generate::full(&mut random);
        let count = random.between(6, 10);
        agree(&planted::ask_open(&mut random, tables, count), &mut tally);
    }
    tally.finish(&[("filled", 20..=80), ("none", 20..=80), ("tried", 20..=100)]);
}

#[test]
fn towers() {
    let seed = seed("search, towers");
    for (shape, depth) in planted::TOWERS.into_iter().zip([30, 12, 5]) {
        let mut tally = Tally::new(&format!("search, towers of {}", depth));
        for tables in problems(seed, shape, cases(Size::Large) / 8) {
            agree(&tables, &mut tally);
        }
        tally.finish(&[BOTH, &[("taken back", 2..=100)]].concat());
    }
}
