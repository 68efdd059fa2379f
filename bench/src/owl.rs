//! Catalogues in OWL functional syntax, at the limits and at random.

use hermitcasket_bench::functional_syntax::read_owl;
use hermitcasket_tests::capi;
use hermitcasket_tests::limits::CATALOGUE_ROOMS;
use hermitcasket_tests::owl::{at_the_limits, catalogue, lines};
use hermitcasket_tests::random::{Random, Size};
use hermitcasket_tests::tables::Tables;

use crate::table::{Line, Tools};
use crate::timing::measure;

fn print_line(label: &str, text: &[u8]) {
    let room = || CATALOGUE_ROOMS.map(|room| vec![0; room]);
    let ([mut concepts, mut inclusions], [mut rows, mut pairs]) = (room(), room());
    let times = measure(
        || {
            let answer = capi::read_owl(text, &mut concepts, &mut inclusions);
            assert_eq!(answer.number, 0, "refused: {:?}", answer);
        },
        || {
            read_owl(text, &mut rows, &mut pairs).expect("all is accepted");
        },
    );
    assert!(concepts == rows && inclusions == pairs, "the two differ for {}", label);
    let (count, axioms) = read_owl(text, &mut rows, &mut pairs).expect("all is accepted");
    concepts.truncate(3 * count);
    inclusions.truncate(2 * axioms);
    let tables = Tables { concepts, inclusions, ..Tables::default() };
    Line::of_two(&format!("text: {}", label), &tables, "read".to_string(), times).print();
}

pub fn print(_: &Tools) {
    for (label, text) in at_the_limits() {
        print_line(label, &text);
    }
    print_line("random", &lines(&catalogue(&mut Random::new(1), Size::Large)));
}
