//! Writing a derivation: time and number of lines by family at full size, over pairs drawn at
//! random from those that are below.

use std::time::Instant;

use hermitcasket_bench::{lend, subsumption_table};
use hermitcasket_tests::capi;
use hermitcasket_tests::families::{Family, FAMILIES};
use hermitcasket_tests::limits::{line_room, MAX_CONCEPTS, ROW_BYTES};
use hermitcasket_tests::random::Random;
use hermitcasket_tests::tables::Tables;

use crate::table::{Line, Tools};
use crate::timing::three_digits;

/// Pairs asked of one table, and how often each; its fastest call counts.
const MOST: usize = 100;
const ROUNDS: usize = 10;

const GOAL_MICROS: f64 = 1000.0;

fn yes_pairs(tables: &Tables) -> Vec<(u16, u16)> {
    let count = tables.concept_count();
    let mut rows = vec![0; count * ROW_BYTES];
    subsumption_table(lend(tables), &[], &mut rows).expect("accepted tables");
    let all = (0..count).flat_map(|left| (0..count).map(move |right| (left, right)));
    let holds =
        |pair: &(usize, usize)| rows[pair.0 * ROW_BYTES + pair.1 / 8] >> (pair.1 % 8) & 1 == 1;
    let mut pairs: Vec<(u16, u16)> =
        all.filter(holds).map(|(left, right)| (left as u16, right as u16)).collect();
    Random::new(1).shuffle(&mut pairs);
    pairs.truncate(MOST);
    pairs
}

/// Of each pair the microseconds and the lines.
struct Written {
    micros: Vec<f64>,
    lines: Vec<u64>,
}

impl Written {
    fn new(tables: &Tables) -> Written {
        let pairs = yes_pairs(tables);
        let mut out = vec![0; line_room(tables.concept_count())];
        let mut written =
            Written { micros: vec![f64::MAX; pairs.len()], lines: vec![0; pairs.len()] };
        for _ in 0..ROUNDS {
            for (k, &pair) in pairs.iter().enumerate() {
                let start = Instant::now();
                let answer = capi::derive(tables.lend(), &[], pair, &mut out);
                let micros = start.elapsed().as_secs_f64() * 1e6;
                assert_eq!(answer.number, 0, "refused: {:?}", answer);
                written.micros[k] = written.micros[k].min(micros);
                written.lines[k] = answer.value;
            }
        }
        written
    }

    fn mean_micros(&self) -> f64 {
        self.micros.iter().sum::<f64>() / self.micros.len() as f64
    }

    fn mean_lines(&self) -> f64 {
        self.lines.iter().sum::<u64>() as f64 / self.lines.len() as f64
    }

    /// The slowest pair: its microseconds and lines.
    fn slowest(&self) -> (f64, u64) {
        let pairs = self.micros.iter().copied().zip(self.lines.iter().copied());
        pairs.fold((0.0, 0), |most, pair| if pair.0 > most.0 { pair } else { most })
    }
}

fn print_lines(family: Family, tools: &Tools) {
    let tables = family.tables(MAX_CONCEPTS);
    let half = Written::new(&family.tables(MAX_CONCEPTS / 2));
    let written = Written::new(&tables);
    let (mean, lines) = (written.mean_micros(), three_digits(written.mean_lines()));
    let growth = mean / half.mean_micros();
    Line::alone(&format!("derivation: {}", family.label()), &tables, lines, mean, Some(growth))
        .print();
    let (micros, lines) = written.slowest();
    let label = format!("derivation: {}, slowest pair", family.label());
    Line::alone(&label, &tables, lines.to_string(), micros, None).print();
    tools.hold(micros <= GOAL_MICROS, &label, "at most 1 ms");
}

pub fn print(tools: &Tools) {
    FAMILIES.iter().for_each(|&family| print_lines(family, tools));
}
