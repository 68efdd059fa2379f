//! Membership in a given interpretation.

use hermitcasket_bench::checks::Stock as Given;
use hermitcasket_bench::{belongs, lend};
use hermitcasket_tests::capi;
use hermitcasket_tests::families::Family;
use hermitcasket_tests::limits::MAX_CONCEPTS;
use hermitcasket_tests::nested::{crowd, tower, APART, FIRST_ROLE, NAME};
use hermitcasket_tests::random::Random;
use hermitcasket_tests::reference::{self, countermodel};
use hermitcasket_tests::tables::{Stock, Tables};

use crate::table::{Line, Tools};
use crate::timing::measure;

struct Asked {
    tables: Tables,
    assignment: Vec<u64>,
    stock: Stock,
    /// Concept and element.
    asked: (u16, u16),
}

impl Asked {
    fn proved(&self) -> bool {
        let stock = (self.stock.size, &self.stock.rows[..]);
        let answer = capi::belongs(self.tables.lend(), &self.assignment, stock, self.asked);
        assert_eq!(answer.number, 0, "refused: {:?}", answer);
        answer.value == 1
    }

    fn plain(&self) -> bool {
        let stock = Given { size: self.stock.size, rows: &self.stock.rows };
        let member = belongs(lend(&self.tables), &self.assignment, stock, self.asked);
        member.expect("all is accepted")
    }

    fn print_line(&self, label: &str) {
        let (mut first, mut second) = (false, false);
        let times = measure(|| first = self.proved(), || second = self.plain());
        assert_eq!(first, second, "the two answers differ for\n{}", self.tables);
        let answer = if first { "yes" } else { "no" };
        let label = format!("member: {}, {} rows", label, self.stock.rows.len() / 4);
        Line::of_two(&label, &self.tables, answer.to_string(), times).print();
    }
}

/// The same with the rows rising.
fn sorted(stock: &Stock) -> Stock {
    let mut rows: Vec<[u16; 4]> = stock.split().collect();
    rows.sort_unstable();
    Stock::new(stock.size, &rows)
}

/// 190 nested existentials over 192 elements.
fn print_nested() {
    for (named, told) in [(APART, "looked at all"), (8, "found")] {
        let stock = crowd(&mut Random::new(1), 29_999, named);
        for (order, stock) in [("sorted", sorted(&stock)), ("shuffled", stock)] {
            let asked = Asked { tables: tower(190), assignment: vec![], stock, asked: (191, 0) };
            asked.print_line(&format!("190 nested, {}, {}", told, order));
        }
    }
}

/// 01's sample tables under {3}, and 60 nested existentials over two elements.
fn print_small() {
    let rows = [[1, 5, 0], [1, 7, 0], [2, 1, 0], [1, 9, 0], [4, 0, 0], [3, 1, 4]];
    let tables = Tables::new(&rows, &[[2, 3]], &[[5, 3], [2, 4]], 1);
    let rows = [[0, 0, 5, 0], [1, 1, 1, 0], [0, 1, 9, 0], [0, 1, 7, 0]];
    let stock = Stock::new(2, &rows);
    let sample = Asked { tables, assignment: vec![4], stock, asked: (5, 1) };
    sample.print_line("01's sample");
    let rows = [[1, 0, FIRST_ROLE, 1], [1, 1, FIRST_ROLE, 0], [0, 1, NAME + 1, 0]];
    let stock = Stock::new(2, &rows);
    let two = Asked { tables: tower(60), assignment: vec![], stock, asked: (61, 0) };
    two.print_line("60 nested, two elements");
}

/// A catalogue in the interpretation that is shown for it: the highest concept that element 0 is
/// not of, and the highest that it is of.
fn print_shown(family: Family) {
    let tables = family.tables(MAX_CONCEPTS);
    let relation = reference::relation(&tables, &[]);
    let rows = countermodel::shown_rows(&tables, &relation);
    let stock = Stock { size: MAX_CONCEPTS as u16, rows };
    for wanted in [false, true] {
        if let Some(concept) = relation[0].iter().rposition(|&holds| holds == wanted) {
            let (tables, stock) = (tables.clone(), stock.clone());
            let asked = Asked { tables, assignment: vec![], stock, asked: (concept as u16, 0) };
            asked.print_line(&format!("{} in what is shown", family.label()));
        }
    }
}

pub fn print(_: &Tools) {
    print_small();
    print_shown(Family::Random);
    print_shown(Family::Cyclic);
    print_nested();
}
