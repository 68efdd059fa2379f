//! What became of the cases of one test: counted by kind, printed past the harness, so that a
//! passing run shows it too, and held to shares.

use std::collections::BTreeMap;
use std::io::{self, Write};
use std::ops::RangeInclusive;

use crate::random::full_run;

pub struct Tally {
    test: String,
    cases: usize,
    kinds: BTreeMap<String, usize>,
}

impl Tally {
    pub fn new(test: &str) -> Self {
        Tally { test: test.to_string(), cases: 0, kinds: BTreeMap::new() }
    }

    /// One more case.
    pub fn case(&mut self) {
        self.cases(1);
    }

    pub fn cases(&mut self, count: usize) {
        self.cases += count;
    }

    /// Whether the case is of this kind. It may be of several.
    pub fn note(&mut self, kind: &str, so: bool) {
        self.add(kind, usize::from(so));
    }

    /// So many more of this kind.
    pub fn add(&mut self, kind: &str, count: usize) {
        *self.kinds.entry(kind.to_string()).or_default() += count;
    }

    /// Prints the counts. In a full run each of these kinds has a share of the cases within its
    /// bounds, in percent.
    pub fn finish(&self, shares: &[(&str, RangeInclusive<usize>)]) {
        let kinds: String = self.kinds.iter().map(|(k, n)| format!(", {} {}", n, k)).collect();
        let line = format!("{}: {} cases{}\n", self.test, self.cases, kinds);
        // one write, so that the harness's lines do not come in between
        let _ = io::stderr().write_all(line.as_bytes());
        if !full_run() {
            return;
        }
        for (kind, share) in shares {
            let count = 100 * self.kinds.get(*kind).copied().unwrap_or(0);
            let within = share.start() * self.cases <= count && count <= share.end() * self.cases;
            assert!(within && self.cases > 0, "{} not in {:?} percent: {}", kind, share, line);
        }
    }
}
