//! hc_subsumed: yes, no, and the refusals with a pair given alone.

use hermitcasket_tests::capi::Answer;
use hermitcasket_tests::compare;
use hermitcasket_tests::faults::{every_set, faults_without_buffer, Fault};
use hermitcasket_tests::generate;
use hermitcasket_tests::random::{cases, seed, Random, Size};
use hermitcasket_tests::reference;
use hermitcasket_tests::tables::{Case, Tables};

fn ask(tables: &Tables, assignment: &[u64], pair: (u16, u16)) -> Answer {
    let mut case = Case::new(tables.clone(), assignment);
    case.pair = pair;
    compare::decide(&case)
}

#[test]
fn a_pair_that_is_no_concept() {
    let tables = Tables::new(&[[0, 0, 0], [1, 5, 0]], &[[0, 1]], &[], 0);
    for pair in [(2, 0), (0, 2), (2, 2), (65535, 0), (1, 65535), (256, 0), (0, 257)] {
        assert_eq!(ask(&tables, &[], pair), Answer::refused(4, 0), "{:?}", pair);
    }
    assert_eq!(ask(&Tables::default(), &[], (0, 0)), Answer::refused(4, 0));
    for pair in [(0, 0), (0, 1), (1, 0), (1, 1)] {
        assert_eq!(ask(&tables, &[], pair), Answer::done(1), "{:?}", pair);
    }
}

/// Place 0 wins over a later inclusion; checks 1 to 3 come first; 5 to 9 come after.
#[test]
fn the_lone_pair_in_the_order() {
    let variable = [[4, 0, 0], [0, 0, 0]];
    let later = Tables::new(&variable, &[[1, 1], [9, 1]], &[], 1);
    assert_eq!(ask(&later, &[0], (9, 9)), Answer::refused(4, 0));
    assert_eq!(ask(&later, &[0], (0, 0)), Answer::refused(4, 1));
    let fifth = Tables::new(&variable, &[[0, 1]], &[], 1);
    assert_eq!(ask(&fifth, &[0], (2, 0)), Answer::refused(4, 0));
    assert_eq!(ask(&fifth, &[0], (1, 0)), Answer::refused(5, 0));
    let sixth = Tables::new(&variable, &[], &[[0, 0]], 1);
    assert_eq!(ask(&sixth, &[0], (0, 2)), Answer::refused(4, 0));
    assert_eq!(ask(&sixth, &[0], (0, 1)), Answer::refused(6, 0));
    let third = Tables::new(&[[2, 0, 0]], &[], &[], 0);
    assert_eq!(ask(&third, &[], (1, 1)), Answer::refused(3, 0));
    let good = Tables::new(&variable, &[], &[], 1);
    assert_eq!(ask(&good, &[1], (2, 2)), Answer::refused(4, 0));
    assert_eq!(ask(&good, &[1], (0, 1)), Answer::refused(9, 0));
    assert_eq!(ask(&good, &[], (0, 1)), Answer::refused(9, 1));
}

/// A pair given alone may hold variables on both sides.
#[test]
fn variables_on_both_sides_of_the_pair() {
    let rows = [[4, 0, 0], [4, 1, 0], [1, 1, 0], [1, 2, 0]];
    let tables = Tables::new(&rows, &[[2, 3]], &[], 2);
    assert_eq!(ask(&tables, &[0, 0], (0, 1)), Answer::done(1));
    assert_eq!(ask(&tables, &[1, 2], (0, 1)), Answer::done(1));
    assert_eq!(ask(&tables, &[2, 1], (0, 1)), Answer::done(0));
    assert_eq!(ask(&tables, &[0, 1], (0, 1)), Answer::done(0));
    assert_eq!(ask(&tables, &[3, 1], (1, 0)), Answer::done(1));
}

/// Questions decide nothing: they are not inclusions.
#[test]
fn questions_are_not_used() {
    let rows = [[1, 1, 0], [1, 2, 0], [4, 0, 0]];
    let tables = Tables::new(&rows, &[], &[[0, 1], [2, 0]], 1);
    assert_eq!(ask(&tables, &[0], (0, 1)), Answer::done(0));
    assert_eq!(ask(&tables, &[0], (2, 0)), Answer::done(0));
}

/// Every set of faults at once: 1 to 6 with the pair at place 0 of 4, 16, 7, then 9.
#[test]
fn every_set_of_faults() {
    for (case, chosen) in every_set(faults_without_buffer()) {
        let refused = |fault: &Fault| Answer::refused(fault.refusal().0, fault.refusal().1);
        let wanted = chosen.first().map_or(Answer::done(1), refused);
        assert_eq!(compare::decide(&case), wanted, "{:?} in\n{}", chosen, case);
    }
}

#[test]
fn random_pairs_agree() {
    let shares = [20..=80, 10..=80, 20..=60];
    compare::yes_or_no("decide", generate::case, compare::decide, shares);
}

/// All pairs of small tables, and many of large ones, in calls one after another.
#[test]
fn all_pairs_agree() {
    let seed = seed("decide, all pairs");
    let mut accepted = 0;
    for (size, most) in [(Size::Small, 196), (Size::Medium, 60), (Size::Large, 20)] {
        for k in 0..(cases(size) / 4).max(1) {
            let mut random = Random::for_case(seed, k);
            let tables = generate::valid(&mut random, size);
            let assignment = generate::assignment(&mut random, &tables);
            let case = Case::new(tables, &assignment);
            assert!(reference::accepts(&case), "case {}:\n{}", k, case);
            let pairs = generate::pairs(&mut random, &case.tables, most);
            compare::decide_pairs(&case, &pairs);
            accepted += pairs.len();
        }
    }
    assert!(accepted > 0);
}
