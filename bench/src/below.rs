//! The subsumption table: time by family and size.

use hermitcasket_bench::{lend, subsumption_table};
use hermitcasket_tests::capi;
use hermitcasket_tests::families::{Family, FAMILIES};
use hermitcasket_tests::limits::ROW_BYTES;
use hermitcasket_tests::reference;
use hermitcasket_tests::tables::Tables;

use crate::external::{konclude::Relation, Timed};
use crate::table::{told, Line, Tools};
use crate::timing::{measure, Times};

/// Of the picture; the table has the last.
pub const SIZES: [usize; 4] = [24, 48, 96, 192];

const GOAL_RATIO: f64 = 3.0;

/// How many pairs are below.
fn proved(tables: &Tables, out: &mut [u8]) -> u64 {
    let answer = capi::subsumption_table(tables.lend(), &[], out);
    assert_eq!(answer.number, 0, "refused: {:?}", answer);
    answer.value
}

fn plain(tables: &Tables, out: &mut [u8]) -> u64 {
    subsumption_table(lend(tables), &[], out).expect("accepted tables")
}

/// The times of both, and the table and the number of marks that they agree on.
fn compare(tables: &Tables) -> (Times, Vec<u8>, u64) {
    let bytes = tables.concept_count() * ROW_BYTES;
    let (mut first, mut second) = (vec![0xff; bytes], vec![0; bytes]);
    let (mut marks, mut counted) = (0, 0);
    let times =
        measure(|| marks = proved(tables, &mut first), || counted = plain(tables, &mut second));
    assert!(first == second, "the two tables differ for\n{}", tables);
    assert_eq!(marks, counted, "the two numbers of marks differ for\n{}", tables);
    (times, first, marks)
}

pub fn times(family: Family, n: usize) -> Times {
    compare(&family.tables(n)).0
}

fn check(told: &Option<Timed<Relation>>, rows: &[u8]) {
    if let Some(Timed { answer: Some(relation), .. }) = told {
        assert!(reference::rows(relation) == rows, "Konclude has another table");
    }
}

/// Prints a line; `half` has the times for half as many entries.
fn print_line(label: &str, tables: &Tables, half: Option<Times>, tools: &Tools) {
    let (times, rows, marks) = compare(tables);
    let konclude = tools.classify(tables);
    check(&konclude, &rows);
    let line = Line {
        label,
        tables,
        answer: marks.to_string(),
        proved: times.proved,
        plain: Some(times.plain),
        growth: half.map(|half| times.proved / half.proved),
        konclude: told(&konclude),
        clasp: String::new(),
    };
    line.print();
    tools.hold(times.ratio() <= GOAL_RATIO, label, "at most 3 times plain Rust");
}

/// A line at full size, and one with 32 role pairs, which change no answer.
fn print_lines(family: Family, tools: &Tools) {
    let half = times(family, SIZES[2]);
    print_line(family.label(), &family.tables(SIZES[3]), Some(half), tools);
    let label = format!("{}, 32 role pairs", family.label());
    print_line(&label, &family.tables_with_role_pairs(SIZES[3]), None, tools);
}

pub fn print(tools: &Tools) {
    FAMILIES.iter().chain(&[Family::Towers]).for_each(|&family| print_lines(family, tools));
}
