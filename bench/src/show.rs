//! Showing an interpretation where a pair fails: time by family at full size.

use hermitcasket_bench::{lend, show};
use hermitcasket_tests::capi;
use hermitcasket_tests::families::FAMILIES;
use hermitcasket_tests::generate::failing_pair;
use hermitcasket_tests::limits::MAX_CONCEPTS;
use hermitcasket_tests::nested::Large;
use hermitcasket_tests::random::Random;
use hermitcasket_tests::tables::Tables;

use crate::table::{Line, Tools};
use crate::timing::measure;

/// How many rows.
fn proved(tables: &Tables, pair: (u16, u16), out: &mut [u16]) -> u64 {
    let answer = capi::show(tables.lend(), &[], pair, out);
    assert_eq!(answer.number, 0, "refused: {:?}", answer);
    answer.value
}

fn plain(tables: &Tables, pair: (u16, u16), out: &mut [u16]) -> u64 {
    show(lend(tables), &[], pair, out).expect("a pair that fails")
}

fn print_line(label: &str, tables: &Tables, pair: (u16, u16)) {
    let wanted = capi::show(tables.lend(), &[], pair, &mut []).place as usize;
    let (mut first, mut second) = (vec![9; wanted], vec![0; wanted]);
    let (mut rows, mut counted) = (0, 0);
    let times = measure(
        || rows = proved(tables, pair, &mut first),
        || counted = plain(tables, pair, &mut second),
    );
    assert_eq!(rows, counted, "the two numbers of rows differ for\n{}", tables);
    assert!(first == second, "the rows differ for\n{}", tables);
    Line::of_two(&format!("shown: {}", label), tables, rows.to_string(), times).print();
}

/// A family in which all pairs hold has nothing to show.
pub fn print(_: &Tools) {
    for family in FAMILIES {
        let with_pairs = format!("{}, 32 role pairs", family.label());
        for (label, tables) in [
            (family.label(), family.tables(MAX_CONCEPTS)),
            (&with_pairs, family.tables_with_role_pairs(MAX_CONCEPTS)),
        ] {
            if let Some(pair) = failing_pair(&mut Random::new(1), &tables, &[]) {
                print_line(label, &tables, pair);
            }
        }
    }
    let large = Large::over_name();
    print_line("191 nested, 32 role pairs", &large.tables, large.pair);
}
