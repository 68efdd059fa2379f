//! hc_check: the refusals 1 to 7 and 16, their order and their places.

use hermitcasket_tests::capi::{self, Answer};
use hermitcasket_tests::compare;
use hermitcasket_tests::faults::{every_set, table_faults};
use hermitcasket_tests::generate;
use hermitcasket_tests::random::{cases, full_run, seed, Random, Size};
use hermitcasket_tests::tables::{Case, Tables};

/// The answer written here by hand, from the library and from the reference.
fn expect(number: u16, place: u64, tables: Tables) {
    let case = Case::new(tables, &[]);
    let answer = compare::check(&case);
    let wanted = Answer { number, place, value: 0 };
    assert_eq!(answer, wanted, "for\n{}", case);
}

#[test]
fn empty_tables_are_accepted() {
    expect(0, 0, Tables::default());
    expect(0, 0, Tables::new(&[], &[], &[], 8));
    expect(0, 0, Tables::new(&[[0, 0, 0]], &[], &[], 0));
}

#[test]
fn examples_of_the_refusal_table() {
    expect(1, 3, Tables::new(&[], &[], &[], 9));
    expect(2, 0, Tables::new(&[[1, 1000, 0]], &[], &[], 0));
    expect(3, 0, Tables::new(&[[2, 1, 0]], &[], &[], 0));
    expect(4, 0, Tables::new(&[], &[[0, 0]], &[], 0));
    let blank = [[4, 0, 0]];
    expect(5, 0, Tables::new(&blank, &[[0, 0]], &[], 1));
    expect(6, 0, Tables::new(&blank, &[], &[[0, 0]], 1));
    let names: Vec<[u16; 3]> = (0..65).map(|name| [1, name, 0]).collect();
    let inclusions: Vec<[u16; 2]> = (0..65).map(|id| [id, id]).collect();
    expect(7, 64, Tables::new(&names, &inclusions, &[], 0));
    expect(1, 4, Tables::default().with_roles(&[[0, 0]; 33]));
    expect(16, 0, Tables::default().with_roles(&[[100, 0]]));
}

/// Each number too many or too few, in each table.
#[test]
fn ragged_tables() {
    let whole = Tables::new(&[[0, 0, 0], [1, 5, 0]], &[[0, 1]], &[[1, 0]], 0);
    for extra in 1..3 {
        let mut tables = whole.clone();
        tables.concepts.resize(6 + extra, 0);
        expect(1, 0, tables);
    }
    for len in [1, 3] {
        let mut tables = whole.clone();
        tables.inclusions.resize(len, 0);
        expect(1, 1, tables);
        let mut tables = whole.clone();
        tables.questions.resize(len, 0);
        expect(1, 2, tables);
    }
    for len in [1, 3] {
        let mut tables = whole.clone();
        tables.roles.resize(len, 0);
        expect(1, 4, tables);
    }
    for len in 1..6 {
        let mut tables = Tables::default();
        tables.concepts.resize(len, 0);
        expect(if len == 3 { 0 } else { 1 }, 0, tables);
    }
}

/// Within check 1 the lowest place wins.
#[test]
fn lowest_limit_place_wins() {
    let mut tables = Tables::new(&[], &[], &[], 8);
    tables.roles.push(0);
    expect(1, 4, tables.clone());
    tables.variables = 9;
    expect(1, 3, tables.clone());
    tables.questions.push(0);
    expect(1, 2, tables.clone());
    tables.inclusions.push(0);
    expect(1, 1, tables.clone());
    tables.concepts.push(0);
    expect(1, 0, tables);
}

#[test]
fn malformed_rows() {
    let bad = [
        [0, 1, 0],
        [0, 0, 1],
        [0, 65535, 65535],
        [1, 1000, 0],
        [1, 65535, 0],
        [1, 0, 1],
        [1, 999, 65535],
        [2, 100, 0],
        [2, 65535, 0],
        [4, 2, 0],
        [4, 65535, 0],
        [4, 0, 1],
        [5, 0, 0],
        [6, 0, 0],
        [255, 0, 0],
        [256, 0, 0],
        [260, 0, 0],
        [65535, 0, 0],
    ];
    for row in bad {
        expect(2, 1, Tables::new(&[[0, 0, 0], row, row], &[], &[], 2));
    }
    let good = [[0, 0, 0], [1, 0, 0], [1, 999, 0], [2, 99, 0], [3, 0, 0], [4, 1, 0]];
    for row in good {
        expect(0, 0, Tables::new(&[[0, 0, 0], row], &[], &[], 2));
    }
}

/// Inner ids are judged by 3 only, whatever they are.
#[test]
fn inner_ids_not_smaller() {
    let bad = [
        [2, 0, 1],
        [2, 0, 2],
        [2, 99, 65535],
        [3, 1, 0],
        [3, 0, 1],
        [3, 1, 1],
        [3, 2, 0],
        [3, 0, 65535],
        [3, 256, 0],
    ];
    for row in bad {
        expect(3, 1, Tables::new(&[[0, 0, 0], row, row], &[], &[], 0));
    }
    expect(3, 0, Tables::new(&[[3, 0, 0]], &[], &[], 0));
    expect(3, 0, Tables::new(&[[2, 0, 65535]], &[], &[], 0));
}

/// Check 2 of every row comes before check 3 of any.
#[test]
fn second_check_before_third() {
    expect(2, 2, Tables::new(&[[2, 0, 0], [3, 7, 7], [1, 1000, 0]], &[], &[], 0));
    expect(2, 0, Tables::new(&[[2, 100, 0]], &[], &[], 0));
}

/// Inclusions and then questions are counted through.
#[test]
fn pairs_without_a_concept() {
    let rows = [[0, 0, 0], [1, 5, 0]];
    for bad in [[2, 0], [0, 2], [65535, 1], [1, 256], [2, 2]] {
        expect(4, 1, Tables::new(&rows, &[[0, 1], bad, bad], &[bad], 0));
        expect(4, 2, Tables::new(&rows, &[[0, 1], [1, 1]], &[bad, [0, 0]], 0));
        expect(4, 0, Tables::new(&rows, &[], &[bad], 0));
    }
    expect(4, 0, Tables::new(&[], &[], &[[0, 0]], 0));
}

/// A variable at any depth, on either side; the lowest inclusion is the place.
#[test]
fn variables_in_inclusions() {
    let rows = [[0, 0, 0], [4, 0, 0], [2, 3, 1], [3, 0, 2], [3, 3, 0], [2, 0, 4], [1, 1, 0]];
    for pattern in 1..6 {
        expect(5, 1, Tables::new(&rows, &[[0, 6], [pattern, 0], [1, 1]], &[], 1));
        expect(5, 1, Tables::new(&rows, &[[0, 6], [6, pattern], [1, 1]], &[], 1));
    }
    expect(0, 0, Tables::new(&rows, &[[0, 6], [6, 0]], &[], 1));
}

#[test]
fn variables_on_both_sides() {
    let rows = [[0, 0, 0], [4, 0, 0], [4, 1, 0], [2, 3, 1], [3, 0, 2], [1, 1, 0]];
    for left in 1..5 {
        for right in 1..5 {
            let both = [left, right];
            expect(6, 1, Tables::new(&rows, &[], &[[left, 0], both, both], 2));
        }
        expect(0, 0, Tables::new(&rows, &[], &[[left, 0], [5, left]], 2));
    }
}

/// 5 of any inclusion comes before 6 of any question, and 4 of any question before 5; 16 of any
/// role pair comes behind these.
#[test]
fn order_between_the_pair_tables() {
    let rows = [[4, 0, 0], [0, 0, 0]];
    expect(5, 1, Tables::new(&rows, &[[1, 1], [0, 1]], &[[0, 0]], 1));
    expect(4, 3, Tables::new(&rows, &[[0, 1], [0, 1]], &[[0, 0], [0, 2]], 1));
    let high = [[100, 100]];
    expect(5, 1, Tables::new(&rows, &[[1, 1], [0, 1]], &[], 1).with_roles(&high));
    expect(6, 1, Tables::new(&rows, &[], &[[0, 1], [0, 0]], 1).with_roles(&high));
    expect(16, 0, Tables::new(&rows, &[], &[[0, 1]], 1).with_roles(&high));
}

/// Every set of faults at once: the first check of 01's order speaks.
#[test]
fn every_set_of_faults() {
    for (case, chosen) in every_set(&table_faults(false)) {
        let (number, place) = chosen.first().map_or((0, 0), |fault| fault.refusal());
        let wanted = Answer { number, place, value: 0 };
        assert_eq!(compare::check(&case), wanted, "{:?} in\n{}", chosen, case);
    }
}

#[test]
fn random_tables_agree() {
    let seed = seed("check");
    let mut seen = [0; 17];
    for size in [Size::Small, Size::Medium, Size::Large] {
        for k in 0..cases(size) {
            let case = generate::case(&mut Random::for_case(seed, k), size);
            seen[usize::from(compare::check(&case).number)] += 1;
        }
    }
    let all_seen = (0..8).chain([16]).all(|number| seen[number] > 0);
    assert!(all_seen || !full_run(), "answers 0 to 7 and 16: {:?}", seen);
}

/// A refused call leaves nothing behind for the next one, nor does an accepted one.
#[test]
fn calls_do_not_touch_each_other() {
    let good = Tables::new(&[[0, 0, 0]], &[[0, 0]], &[], 0);
    let bad = Tables::new(&[[5, 0, 0]], &[[0, 0]], &[], 9);
    for _ in 0..3 {
        assert_eq!(capi::check(good.lend()), Answer::done(0));
        assert_eq!(capi::check(bad.lend()), Answer::refused(1, 3));
    }
}
