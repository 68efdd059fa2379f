//! The one table: a line for each family.

use std::cell::RefCell;

use hermitcasket_tests::reference::atoms;
use hermitcasket_tests::settings::Settings;
use hermitcasket_tests::tables::Tables;

use crate::external::{clasp, konclude, Scratch, Timed, LIMIT};
use crate::markdown::{self, print_row, Column};
use crate::timing::{in_words, three_digits, Times};

/// The tools of others that are installed, and the lines of this run that miss a goal.
pub struct Tools {
    pub scratch: Scratch,
    konclude: bool,
    clasp: bool,
    missed: RefCell<Vec<String>>,
}

impl Tools {
    pub fn find() -> Tools {
        let scratch = Scratch::new().expect("a folder for the files of other tools");
        let (konclude, clasp) = (konclude::installed(), clasp::installed());
        Tools { scratch, konclude, clasp, missed: RefCell::default() }
    }

    /// Notes the line where it misses the goal.
    pub fn hold(&self, met: bool, line: &str, goal: &str) {
        if !met {
            self.missed.borrow_mut().push(format!("- {}: not {}", line, goal));
        }
    }

    pub fn print_missed(&self) {
        match &self.missed.borrow()[..] {
            [] => println!("\nEvery line meets its goals."),
            missed => println!("\nGoals missed:\n\n{}", missed.join("\n")),
        }
    }

    /// Where the tool is missing, nothing.
    pub fn classify(&self, tables: &Tables) -> Option<Timed<konclude::Relation>> {
        self.konclude.then(|| konclude::classify(tables, &self.scratch))
    }

    pub fn solve(&self, tables: &Tables) -> Option<Timed<bool>> {
        self.clasp.then(|| clasp::solve(tables, &self.scratch))
    }

    pub fn solve_within(&self, tables: &Tables, settings: &Settings) -> Option<Timed<bool>> {
        self.clasp.then(|| clasp::solve_within(tables, settings, &self.scratch))
    }
}

pub struct Line<'a> {
    pub label: &'a str,
    pub tables: &'a Tables,
    pub answer: String,
    pub proved: f64,
    pub plain: Option<f64>,
    pub growth: Option<f64>,
    pub konclude: String,
    pub clasp: String,
}

/// How long a tool took, or a dash where it is missing.
pub fn told<A>(timed: &Option<Timed<A>>) -> String {
    match timed {
        None => "-".to_string(),
        Some(Timed { answer: None, .. }) => format!("> {} s", LIMIT.as_secs()),
        Some(Timed { micros, .. }) => in_words(*micros),
    }
}

const COLUMNS: [Column; 11] = [
    ("family", 57),
    ("entries", 7),
    ("blanks", 6),
    ("parts", 5),
    ("answer", 7),
    ("proved", 7),
    ("Rust", 7),
    ("ratio", 6),
    ("growth", 6),
    ("Konclude", 8),
    ("gringo, clasp", 13),
];

pub fn print_head(tools: &Tools) {
    for (installed, name) in [(tools.konclude, "konclude"), (tools.clasp, "gringo and clasp")] {
        if !installed {
            println!("Not installed, so left out: Debian's {}.", name);
        }
    }
    println!("Time for one operation, the fastest of several.\n");
    markdown::print_head(&COLUMNS);
    let nothing = Tables::default();
    let mut cells = vec![String::new(); 11];
    cells[0] = "nothing: start of the process".to_string();
    cells[9] = told(&tools.classify(&nothing));
    cells[10] = told(&tools.solve(&nothing));
    print_row(&COLUMNS, &cells);
}

impl<'a> Line<'a> {
    /// A line that no other tool has part in.
    pub fn of_two(label: &'a str, tables: &'a Tables, answer: String, times: Times) -> Line<'a> {
        let plain = Some(times.plain);
        Line { plain, ..Line::alone(label, tables, answer, times.proved, None) }
    }

    /// A line of the proved library only.
    pub fn alone(
        label: &'a str,
        tables: &'a Tables,
        answer: String,
        proved: f64,
        growth: Option<f64>,
    ) -> Line<'a> {
        let (konclude, clasp) = (String::new(), String::new());
        Line { label, tables, answer, proved, plain: None, growth, konclude, clasp }
    }

    pub fn print(self) {
        let cells = [
            self.label.to_string(),
            self.tables.concept_count().to_string(),
            self.tables.variables.to_string(),
            atoms::list(self.tables).len().to_string(),
            self.answer,
            in_words(self.proved),
            self.plain.map_or(String::new(), in_words),
            self.plain.map_or(String::new(), |plain| three_digits(self.proved / plain)),
            self.growth.map_or(String::new(), three_digits),
            self.konclude,
            self.clasp,
        ];
        print_row(&COLUMNS, &cells);
    }
}
