//! The search that the matcher is timed beside gives the first assignment, or none, just where the
//! independent implementation of tests/ does, within settings too.

use hermitcasket_bench::lend;
use hermitcasket_bench::search::{find, find_within};
use hermitcasket_tests::generate;
use hermitcasket_tests::hard::{self, Hard, Known};
use hermitcasket_tests::planted::{self, Shape};
use hermitcasket_tests::random::{cases, seed, Random, Size};
use hermitcasket_tests::reference::{self, matching};
use hermitcasket_tests::settings::Settings;
use hermitcasket_tests::settings_families;
use hermitcasket_tests::tables::Tables;
use hermitcasket_tests::tally::Tally;

fn first(tables: &Tables) -> Option<Vec<u64>> {
    let mut out = vec![0; usize::from(tables.variables)];
    match find(lend(tables), &mut out) {
        Ok(()) => Some(out),
        Err(refusal) => {
            assert_eq!(refusal, (10, 0), "for\n{}", tables);
            None
        }
    }
}

fn agree(tables: &Tables, tally: &mut Tally) {
    let expected = matching::first_solution(tables);
    assert_eq!(first(tables), expected, "for\n{}", tables);
    let empty = |first: &Vec<u64>| first.iter().all(|&choice| choice == 0);
    tally.case();
    tally.note("none", expected.is_none());
    tally.note("chosen", expected.as_ref().map_or(false, |first| !empty(first)));
    tally.note("role pairs", !tables.roles.is_empty());
}

/// With few questions, so that both answers are frequent; most of those that nothing chosen solves
/// are left out, since they would be the greater part.
fn random_tables(random: &mut Random, size: Size) -> Tables {
    loop {
        let mut tables = generate::valid(random, size);
        tables.questions.truncate(2 * random.between(1, 6));
        if tables.roles.is_empty() && random.percent(50) {
            generate::add_role_pairs(random, 4, &mut tables);
        }
        let nothing = vec![0; usize::from(tables.variables)];
        if random.percent(25) || !matching::solves(&tables, &nothing) {
            return tables;
        }
    }
}

#[test]
fn random_problems() {
    let seed = seed("plain search");
    let mut tally = Tally::new("plain search");
    for (size, share) in [(Size::Small, 1), (Size::Medium, 2), (Size::Large, 8)] {
        for k in 0..(cases(size) / share).max(1) {
            agree(&random_tables(&mut Random::for_case(seed, k), size), &mut tally);
        }
    }
    tally.finish(&[("none", 20..=80), ("chosen", 15..=80), ("role pairs", 30..=90)]);
}

/// A problem that needs a search, now and then with role pairs, which may change its answer.
fn planted(seed: u64, k: usize, shape: Shape) -> Tables {
    let mut random = Random::for_case(seed, k);
    let mut tables = planted::problem(&mut random, shape);
    if random.percent(50) {
        generate::add_role_pairs(&mut random, 4, &mut tables);
    }
    tables
}

#[test]
fn planted_problems() {
    let seed = seed("plain search, planted");
    let mut tally = Tally::new("plain search, planted");
    let shapes =
        [&planted::TINY[..], &[planted::MEDIUM], &planted::FULL, &planted::TOWERS].concat();
    for shape in shapes {
        for k in 0..(cases(Size::Large) / 8).max(1) {
            agree(&planted(seed, k, shape), &mut tally);
        }
    }
    tally.finish(&[("none", 20..=80), ("chosen", 20..=80), ("role pairs", 30..=70)]);
}

/// The oracle's answer, and what is known of it beforehand.
fn as_known(problem: &Hard) {
    let found = first(&problem.tables);
    assert_eq!(found, matching::first_solution(&problem.tables), "{}", problem.label);
    match &problem.known {
        Known::First(first) => assert_eq!(found.as_ref(), Some(first), "{}", problem.label),
        Known::Solvable => assert!(found.is_some(), "{}", problem.label),
        Known::Unsolvable => assert!(found.is_none(), "{}", problem.label),
        Known::Open => {}
    }
}

#[test]
fn hard_families() {
    for k in [1, 7, 60] {
        hard::with_harmless(k).iter().for_each(as_known);
    }
    for seed in 1..4 {
        hard::puzzles(seed).iter().for_each(as_known);
        hard::at_the_limits(seed).iter().for_each(as_known);
        hard::spread_over_roles(seed).iter().for_each(as_known);
        hard::large_random_puzzles(seed).iter().for_each(as_known);
    }
    hard::large_fixed_puzzles().iter().for_each(as_known);
    as_known(&hard::hardest_pigeons());
}

fn agree_within(tables: &Tables, settings: &Settings, tally: &mut Tally) {
    let mut out = vec![0; usize::from(tables.variables)];
    let answer = find_within(lend(tables), &settings.permitted, &settings.largest, &mut out);
    let expected = matching::first_solution_within(tables, settings);
    let first = answer.is_ok().then_some(out);
    assert_eq!(first, expected, "{:?} for {}\n{}", answer, settings, tables);
    tally.case();
    tally.note("none", expected.is_none());
    tally.note("chosen", expected.map_or(false, |first| first.iter().any(|&choice| choice != 0)));
}

#[test]
fn random_settings() {
    let seed = seed("plain search, settings");
    let mut tally = Tally::new("plain search, settings");
    for (size, share) in [(Size::Small, 2), (Size::Medium, 4), (Size::Large, 8)] {
        for k in 0..(cases(size) / share).max(1) {
            let mut random = Random::for_case(seed, k);
            let tables = random_tables(&mut random, size);
            let settings = generate::settings(&mut random, &tables);
            agree_within(&tables, &settings, &mut tally);
        }
    }
    tally.finish(&[("none", 30..=95), ("chosen", 4..=60)]);
}

#[test]
fn settings_of_planted_problems() {
    let seed = seed("plain search, planted settings");
    let mut tally = Tally::new("plain search, planted settings");
    for shape in [planted::TINY[0], planted::TINY[1], planted::MEDIUM, planted::FULL[1]] {
        for k in 0..(cases(Size::Large) / 4).max(1) {
            let tables = planted(seed, k, shape.planted());
            let mut random = Random::for_case(seed, k);
            let mut settings = Settings::counted(&tables, random.between(1, 5) as u16);
            settings.permitted.iter_mut().for_each(|permitted| {
                *permitted &= random.number() | random.number() | random.number()
            });
            agree_within(&tables, &settings, &mut tally);
        }
    }
    tally.finish(&[("none", 20..=80), ("chosen", 20..=80)]);
}

#[test]
fn families_with_settings() {
    let mut tally = Tally::new("plain search, families with settings");
    for seed in 1..4 {
        let problems = [settings_families::small(seed), settings_families::large(seed)];
        for problem in problems.iter().flatten() {
            agree_within(&problem.tables, &problem.settings, &mut tally);
        }
    }
    for problem in settings_families::hardest() {
        agree_within(&problem.tables, &problem.settings, &mut tally);
    }
    tally.finish(&[("none", 30..=80), ("chosen", 20..=70)]);
}

/// Tables, settings and buffers at random, damaged or not: the refusals.
#[test]
fn refusals_of_settings() {
    let seed = seed("plain search, refusals of settings");
    let mut tally = Tally::new("plain search, refusals of settings");
    for size in [Size::Small, Size::Medium] {
        for k in 0..cases(size) / 8 {
            let case = generate::within_case(&mut Random::for_case(seed, k), size);
            let Settings { permitted, largest } = &case.settings;
            let mut out = vec![0; case.match_room];
            let answer = find_within(lend(&case.tables), permitted, largest, &mut out);
            let due = reference::find_within(&case.tables, &case.settings, case.match_room);
            let due = due.map(drop).map_err(|refusal| (refusal.number, refusal.place));
            assert_eq!(answer, due, "for\n{}", case);
            tally.case();
            tally.note("settings refused", matches!(due, Err((19, _))));
        }
    }
    tally.finish(&[("settings refused", 3..=30)]);
}
