//! The matcher within settings, on the families that these make hard.

use hermitcasket_bench::{lend, search};
use hermitcasket_tests::capi;
use hermitcasket_tests::limits::MAX_VARIABLES;
use hermitcasket_tests::settings::Settings;
use hermitcasket_tests::settings_families::{hardest, large, Within};

use crate::matcher::{print_times, Found};
use crate::table::Tools;
use crate::timing::measure;

fn proved(problem: &Within) -> Found {
    let mut out = [0; MAX_VARIABLES];
    let Settings { permitted, largest } = &problem.settings;
    let answer = capi::find_within(problem.tables.lend(), permitted, largest, &mut out);
    (answer.number, out)
}

fn plain(problem: &Within) -> Found {
    let mut out = [0; MAX_VARIABLES];
    let Settings { permitted, largest } = &problem.settings;
    let answer = search::find_within(lend(&problem.tables), permitted, largest, &mut out);
    (answer.map_or_else(|refusal| refusal.0, |()| 0), out)
}

fn print_line(problem: &Within, tools: &Tools) {
    let Within { label, tables, settings, .. } = problem;
    let found = plain(problem);
    let times = measure(
        || assert!(proved(problem) == found, "the two answers differ for\n{}", problem.case()),
        || assert!(plain(problem) == found),
    );
    print_times(label, tables, found, times, tools.solve_within(tables, settings), tools);
}

pub fn print(tools: &Tools) {
    let problems = [large(1), hardest()];
    problems.iter().flatten().for_each(|problem| print_line(problem, tools));
}
