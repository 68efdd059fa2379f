//! hc_blanks: the set of every id, ids that are no entry, and the refusals in their order.

use hermitcasket_tests::capi::Answer;
use hermitcasket_tests::compare;
use hermitcasket_tests::faults::{every_set, table_faults, Fault};
use hermitcasket_tests::generate;
use hermitcasket_tests::random::{cases, seed, Random, Size};
use hermitcasket_tests::tables::{Case, Tables};
use hermitcasket_tests::tally::Tally;

fn ask(tables: &Tables, id: u16) -> Answer {
    compare::blanks(&Case::new(tables.clone(), &[]), id)
}

/// Blanks 0 and 7, alone, inside "some", in both members of an "and" and in one.
#[test]
fn sets_by_hand() {
    let rows = [[4, 0, 0], [4, 7, 0], [1, 5, 0], [2, 3, 1], [3, 0, 3], [3, 2, 2], [3, 2, 4], [0, 0, 0], [3, 0, 0]];
    let tables = Tables::new(&rows, &[], &[], 8);
    for (id, set) in [1, 128, 0, 128, 129, 0, 129, 0, 1].into_iter().enumerate() {
        assert_eq!(ask(&tables, id as u16), Answer::done(set), "id {}", id);
    }
}

#[test]
fn an_id_that_is_no_entry() {
    let tables = Tables::new(&[[0, 0, 0], [4, 0, 0]], &[], &[], 1);
    for id in [2, 3, 191, 192, 256, 257, 65535] {
        assert_eq!(ask(&tables, id), Answer::refused(4, 0), "id {}", id);
    }
    assert_eq!(ask(&Tables::default(), 0), Answer::refused(4, 0));
}

/// A tower of 184 over all eight blanks: "and" of blank and what went before, and "some" of it.
#[test]
fn a_deep_tower() {
    let mut rows: Vec<[u16; 3]> = (0..8).map(|blank| [4, blank, 0]).collect();
    let mut wanted: Vec<u64> = (0..8).map(|blank| 1 << blank).collect();
    for id in 8..192u16 {
        let blank = id % 8;
        rows.push(if id % 2 == 0 { [2, 0, id - 1] } else { [3, blank, id - 1] });
        let below = wanted[usize::from(id) - 1];
        wanted.push(if id % 2 == 0 { below } else { below | 1 << blank });
    }
    let tables = Tables::new(&rows, &[], &[], 8);
    for (id, &set) in wanted.iter().enumerate() {
        assert_eq!(ask(&tables, id as u16), Answer::done(set), "id {}", id);
    }
}

/// The id is judged within check 4 at place 0: after 1 to 3, before a later inclusion and 5 to 7.
#[test]
fn the_id_in_the_order() {
    let variable = [[4, 0, 0], [0, 0, 0]];
    let later = Tables::new(&variable, &[[1, 1], [9, 1]], &[], 1);
    assert_eq!(ask(&later, 9), Answer::refused(4, 0));
    assert_eq!(ask(&later, 0), Answer::refused(4, 1));
    let fifth = Tables::new(&variable, &[[0, 1]], &[], 1);
    assert_eq!(ask(&fifth, 2), Answer::refused(4, 0));
    assert_eq!(ask(&fifth, 0), Answer::refused(5, 0));
    let third = Tables::new(&[[2, 0, 0]], &[], &[], 0);
    assert_eq!(ask(&third, 1), Answer::refused(3, 0));
}

/// Every set of the tables' faults at once, the lone id's among them.
#[test]
fn every_set_of_faults() {
    for (case, chosen) in every_set(&table_faults(true)) {
        let refused = |fault: &Fault| Answer::refused(fault.refusal().0, fault.refusal().1);
        let answer = compare::blanks(&case, case.pair.0.max(case.pair.1));
        match chosen.first() {
            Some(fault) => assert_eq!(answer, refused(fault), "{:?} in\n{}", chosen, case),
            None => assert_eq!(answer.number, 0, "{}", case),
        }
    }
}

/// Every id of random tables, and those at and past the count.
#[test]
fn random_sets_agree() {
    let seed = seed("variables");
    let mut tally = Tally::new("variables");
    for size in [Size::Small, Size::Medium, Size::Large] {
        for k in 0..(cases(size) / 4).max(1) {
            let case = generate::case(&mut Random::for_case(seed, k), size);
            let count = case.tables.concept_count() as u16;
            for id in (0..count).chain([count, count + 1, 65535]) {
                let answer = compare::blanks(&case, id);
                tally.case();
                tally.note("empty", answer == Answer::done(0));
                tally.note("some", answer.number == 0 && answer.value > 0);
                tally.note("refused", answer.number > 0);
            }
        }
    }
    tally.finish(&[("empty", 10..=80), ("some", 5..=80), ("refused", 5..=70)]);
}
