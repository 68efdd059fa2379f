//! 01's sample cards A to G, K and L, and M to O of the requests.

use hermitcasket_tests::capi::{self, Answer};
use hermitcasket_tests::compare;
use hermitcasket_tests::limits::ATOM_ROOM;
use hermitcasket_tests::tables::{Case, Tables};

/// The problem of 01's "House text and the program".
fn problem() -> Tables {
    let rows = [[1, 5, 0], [1, 7, 0], [2, 1, 0], [1, 9, 0], [4, 0, 0], [3, 1, 4]];
    Tables::new(&rows, &[[2, 3]], &[[5, 3], [2, 4]], 1)
}

fn loop_problem() -> Tables {
    Tables::new(&[[1, 1, 0], [2, 0, 0], [2, 0, 1]], &[[0, 1]], &[], 0)
}

/// Decided alone, and read from the table: byte left x 24 + right div 8.
fn expect(holds: bool, tables: Tables, assignment: &[u64], left: u16, right: u16) {
    let mut case = Case::new(tables, assignment);
    case.pair = (left, right);
    assert_eq!(compare::decide(&case), Answer::done(u64::from(holds)));
    let mut bytes = vec![0x5a; case.table_room];
    let answer = capi::subsumption_table(case.tables.lend(), assignment, &mut bytes);
    assert_eq!(answer.number, 0);
    let byte = bytes[usize::from(left) * 24 + usize::from(right) / 8];
    assert_eq!(byte >> (right % 8) & 1 == 1, holds);
    compare::all(&case);
}

// Positions: the atoms are 0, 2, 3, so {3} is choice number 4 and {0} is 1.

#[test]
fn a_2_is_below_3() {
    expect(true, problem(), &[0], 2, 3);
}

#[test]
fn b_3_is_not_below_2() {
    expect(false, problem(), &[0], 3, 2);
}

#[test]
fn c_choice_3_makes_5_below_3() {
    expect(true, problem(), &[4], 5, 3);
}

#[test]
fn d_empty_choice_leaves_5_not_below_3() {
    expect(false, problem(), &[0], 5, 3);
}

#[test]
fn e_empty_choice_makes_0_below_4() {
    expect(true, problem(), &[0], 0, 4);
}

#[test]
fn f_choice_0_makes_4_below_0() {
    expect(true, problem(), &[1], 4, 0);
}

#[test]
fn g_parts_are_0_2_3() {
    let mut out = [0xabcd; ATOM_ROOM];
    assert_eq!(capi::atoms(problem().lend(), &mut out), Answer::done(3));
    assert_eq!(out[..3], [0, 2, 3]);
    assert_eq!(out[3..], [0xabcd; ATOM_ROOM - 3]);
}

#[test]
fn k_0_is_below_2_without_unrolling() {
    expect(true, loop_problem(), &[], 0, 2);
}

#[test]
fn l_1_is_not_below_0() {
    expect(false, loop_problem(), &[], 1, 0);
}

/// Entries 0 and 2 are twins, and only 2 stands in an inclusion.
#[test]
fn m_parts_are_0_1() {
    let tables = Tables::new(&[[1, 5, 0], [1, 7, 0], [1, 5, 0]], &[[1, 2]], &[], 0);
    let mut out = [0xabcd; ATOM_ROOM];
    assert_eq!(capi::atoms(tables.lend(), &mut out), Answer::done(2));
    assert_eq!(out[..2], [0, 1]);
}

/// "Some" by role 3 and by role 4, which is wider.
fn role_problem() -> Tables {
    let tables = Tables::new(&[[1, 5, 0], [2, 3, 0], [2, 4, 0]], &[], &[], 0);
    Tables { roles: vec![3, 4], ..tables }
}

#[test]
fn n_1_is_below_2() {
    expect(true, role_problem(), &[], 1, 2);
}

#[test]
fn o_2_is_not_below_1() {
    expect(false, role_problem(), &[], 2, 1);
}
