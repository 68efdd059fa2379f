//! Tables under new ids, by family at full size.

use hermitcasket_bench::{lend, renumber};
use hermitcasket_tests::capi;
use hermitcasket_tests::families::FAMILIES;
use hermitcasket_tests::generate::full;
use hermitcasket_tests::limits::MAX_CONCEPTS;
use hermitcasket_tests::orders::rising;
use hermitcasket_tests::random::Random;
use hermitcasket_tests::tables::Tables;

use crate::table::{Line, Tools};
use crate::timing::measure;

fn print_line(label: &str, tables: &Tables) {
    let order = rising(&mut Random::new(1), tables);
    let (mut first, mut second) = (tables.clone(), tables.clone());
    let times = measure(
        || {
            let Tables { concepts, inclusions, questions, .. } = &mut first;
            let answer = capi::renumber(tables.lend(), &order, concepts, inclusions, questions);
            assert_eq!(answer.number, 0, "refused: {:?}", answer);
        },
        || {
            let Tables { concepts, inclusions, questions, .. } = &mut second;
            let done = renumber(lend(tables), &order, [concepts, inclusions, questions]);
            done.expect("all is accepted");
        },
    );
    assert!(first == second, "the two differ for\n{}", tables);
    Line::of_two(&format!("new ids: {}", label), tables, "done".to_string(), times).print();
}

pub fn print(_: &Tools) {
    for family in FAMILIES {
        print_line(family.label(), &family.tables(MAX_CONCEPTS));
    }
    print_line("at the limits", &full(&mut Random::new(1)));
}
