//! Decisions a second of the finder with an allowance, on the cards of `matcher` and `puzzles`.

use hermitcasket_tests::capi::{self, Answer};
use hermitcasket_tests::hard::{self, Hard};
use hermitcasket_tests::limits::MAX_VARIABLES;
use hermitcasket_tests::settings::Settings;

use crate::markdown::{print_head, print_row, Column};
use crate::timing::{in_words, measure_all, three_digits};

const ALLOWANCE: u32 = 1_000_000;
/// Where there are fewer decisions, what comes before the first is a good part of the time.
const MANY: u64 = 10_000;

const COLUMNS: [Column; 6] = [
    ("card", 60),
    ("answer", 6),
    ("decisions", 9),
    ("time", 8),
    ("a decision", 10),
    ("a second", 11),
];

/// Microseconds of a decision, where there are many.
fn print_line(Hard { label, tables, .. }: &Hard) -> Option<f64> {
    let Settings { permitted, largest } = Settings::open(tables);
    let find = || {
        let mut out = [0; MAX_VARIABLES];
        capi::find_counted(tables.lend(), &permitted, &largest, ALLOWANCE, &mut out)
    };
    let Answer { number, value: count, .. } = find();
    let [micros] = measure_all([&mut || assert_eq!(find().value, count)]);
    let answer = match number {
        0 => "filled",
        10 => "none",
        14 => "spent",
        _ => panic!("refused: {} for\n{}", number, tables),
    };
    let each = micros / count as f64;
    let (one, a_second) = match count {
        0 => ("-".to_string(), "-".to_string()),
        _ => (in_nanos(each), format!("{:.0}", 1e6 / each)),
    };
    let cells = [label, answer, &count.to_string(), &in_words(micros), &one, &a_second];
    print_row(&COLUMNS, &cells.map(str::to_string));
    (count >= MANY).then_some(each)
}

fn in_nanos(micros: f64) -> String {
    format!("{} ns", three_digits(1e3 * micros))
}

pub fn print() {
    println!(
        "Decisions of hc_match_counted on an allowance of {}, all parts permitted.\n",
        ALLOWANCE
    );
    print_head(&COLUMNS);
    let mut problems = hard::with_harmless(60);
    problems.extend(hard::at_the_limits(1));
    problems.extend(hard::spread_over_roles(1));
    problems.extend(hard::large_random_puzzles(1));
    problems.extend(hard::large_fixed_puzzles());
    problems.push(hard::hardest_pigeons());
    let many: Vec<f64> = problems.iter().filter_map(print_line).collect();
    let under = many.iter().filter(|&&each| each < 1.0).count();
    println!(
        "\nOf {} cards with {} decisions or more, {} take less than 1 us a decision.",
        many.len(),
        MANY,
        under
    );
}
