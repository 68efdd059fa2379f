//! One group beside the whole: an easy card in a file with each hard one of `matcher` and `puzzles`.

use hermitcasket_tests::capi::{self, Answer};
use hermitcasket_tests::hard::{self, Hard};
use hermitcasket_tests::limits::MAX_VARIABLES;
use hermitcasket_tests::settings::Settings;

use crate::markdown::{print_head, print_row, Column};
use crate::timing::{in_words, measure_all, three_digits};

const COLUMNS: [Column; 6] = [
    ("hard card", 60),
    ("answer", 6),
    ("whole file", 10),
    ("hard group", 10),
    ("easy group", 10),
    ("share", 7),
];

/// The share of the whole's time that the easy group takes.
fn print_line(Hard { label, tables, .. }: &Hard) -> Option<f64> {
    let (file, easy) = hard::with_easy_card(tables)?;
    let Settings { permitted, largest } = Settings::open(&file);
    let mut out = [0; MAX_VARIABLES];
    let whole = |out: &mut [u64]| capi::find_within(file.lend(), &permitted, &largest, out);
    let group =
        |m: u16, out: &mut [u64]| capi::find_group(file.lend(), &permitted, &largest, m, out);
    let Answer { number, .. } = whole(&mut out);
    let mut outs = [[0; MAX_VARIABLES]; 3];
    let [a, b, c] = &mut outs;
    let [all, hard, alone] = measure_all([
        &mut || assert_eq!(whole(a).number, number),
        &mut || assert!([0, 10].contains(&group(0, b).number)),
        &mut || assert_eq!(group(easy, c), Answer::done(0)),
    ]);
    let answer = if number == 0 { "filled" } else { "none" };
    let share = alone / all;
    let times = [all, hard, alone].map(in_words);
    let cells = [label, answer, &times[0], &times[1], &times[2], &three_digits(share)];
    print_row(&COLUMNS, &cells.map(str::to_string));
    Some(share)
}

pub fn print() {
    println!("hc_match_group of an easy card and of the hard one beside it, all parts permitted.\n");
    print_head(&COLUMNS);
    let mut problems = hard::with_harmless(60);
    problems.extend(hard::at_the_limits(1));
    problems.extend(hard::spread_over_roles(1));
    problems.extend(hard::large_random_puzzles(1));
    problems.extend(hard::large_fixed_puzzles());
    problems.push(hard::hardest_pigeons());
    let shares: Vec<f64> = problems.iter().filter_map(print_line).collect();
    let most = shares.iter().copied().fold(0.0, f64::max);
    println!("\nThe easy card takes {} of the whole file's time at most.", three_digits(most));
}
