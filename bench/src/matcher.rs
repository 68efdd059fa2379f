//! The matcher on the hard families.

use hermitcasket_bench::{lend, search};
use hermitcasket_tests::capi;
use hermitcasket_tests::hard::{self, Hard};
use hermitcasket_tests::limits::MAX_VARIABLES;
use hermitcasket_tests::tables::Tables;

use crate::external::Timed;
use crate::table::{told, Line, Tools};
use crate::timing::{measure, Times};

const GOAL_MICROS: f64 = 10_000.0;
const GOAL_RATIO: f64 = 3.0;

/// Refusal number, 0 for a solution, and the solution.
pub type Found = (u16, [u64; MAX_VARIABLES]);

fn proved(tables: &Tables) -> Found {
    let mut out = [0; MAX_VARIABLES];
    let answer = capi::find(tables.lend(), &mut out);
    (answer.number, out)
}

fn plain(tables: &Tables) -> Found {
    let mut out = [0; MAX_VARIABLES];
    let answer = search::find(lend(tables), &mut out);
    (answer.map_or_else(|refusal| refusal.0, |()| 0), out)
}

fn print_line(problem: &Hard, tools: &Tools) {
    let tables = &problem.tables;
    let found = plain(tables);
    let times = measure(
        || assert!(proved(tables) == found, "the two answers differ for\n{}", tables),
        || assert!(plain(tables) == found),
    );
    print_times(&problem.label, tables, found, times, tools.solve(tables), tools);
}

/// The line of one problem, and whether it meets the goals.
pub fn print_times(
    label: &str,
    tables: &Tables,
    found: Found,
    times: Times,
    clasp: Option<Timed<bool>>,
    tools: &Tools,
) {
    let filled = found.0 == 0;
    if let Some(answer) = clasp.as_ref().and_then(|timed| timed.answer) {
        assert_eq!(answer, filled, "clasp has another answer for\n{}", tables);
    }
    let line = Line {
        label,
        tables,
        answer: if filled { "filled" } else { "none" }.to_string(),
        proved: times.proved,
        plain: Some(times.plain),
        growth: None,
        konclude: String::new(),
        clasp: told(&clasp),
    };
    line.print();
    hold_goals(label, times, &clasp, tools);
}

fn hold_goals(label: &str, times: Times, clasp: &Option<Timed<bool>>, tools: &Tools) {
    tools.hold(times.proved < GOAL_MICROS, label, "under 10 ms");
    tools.hold(times.ratio() <= GOAL_RATIO, label, "at most 3 times plain Rust");
    if let Some(timed) = clasp {
        tools.hold(times.proved < timed.micros, label, "faster than gringo and clasp");
    }
}

pub fn print(tools: &Tools) {
    let mut problems = hard::with_harmless(60);
    for seed in 1..4 {
        problems.extend(hard::at_the_limits(seed));
    }
    problems.extend(hard::spread_over_roles(1));
    problems.iter().for_each(|problem| print_line(problem, tools));
}

pub fn print_puzzles(tools: &Tools) {
    let mut problems = hard::large_random_puzzles(1);
    problems.extend(hard::large_fixed_puzzles());
    problems.push(hard::hardest_pigeons());
    problems.iter().for_each(|problem| print_line(problem, tools));
}
