//! A small generator of random numbers, its seed, and how many cases to run.

use std::env;
use std::io::{self, Write};
use std::time::{SystemTime, UNIX_EPOCH};

const DEFAULT_SEED: u64 = 20_250_917;
const DEFAULT_CASES: usize = 24_000;

/// How large the tables of a random test are.
#[derive(Clone, Copy, Debug, PartialEq, Eq)]
pub enum Size {
    Small,
    Medium,
    Large,
}

/// SplitMix64.
#[derive(Clone)]
pub struct Random {
    state: u64,
}

impl Random {
    pub fn new(seed: u64) -> Self {
        Random { state: seed }
    }

    /// Each case has numbers of its own, whatever the cases before it drew.
    pub fn for_case(seed: u64, case: usize) -> Self {
        let mut mixed = Random::new(seed);
        let first = mixed.number();
        let mut own = Random::new(first ^ (case as u64).wrapping_mul(0xd134_2543_de82_ef95));
        own.number();
        own
    }

    pub fn number(&mut self) -> u64 {
        self.state = self.state.wrapping_add(0x9e37_79b9_7f4a_7c15);
        let mut z = self.state;
        z = (z ^ (z >> 30)).wrapping_mul(0xbf58_476d_1ce4_e5b9);
        z = (z ^ (z >> 27)).wrapping_mul(0x94d0_49bb_1331_11eb);
        z ^ (z >> 31)
    }

    /// From 0 to `bound` - 1. The slight bias does not matter here.
    pub fn below(&mut self, bound: usize) -> usize {
        assert!(bound > 0, "nothing to choose from");
        (self.number() % bound as u64) as usize
    }

    /// Both ends included.
    pub fn between(&mut self, low: usize, high: usize) -> usize {
        low + self.below(high - low + 1)
    }

    pub fn percent(&mut self, chance: usize) -> bool {
        self.below(100) < chance
    }

    pub fn shuffle<T>(&mut self, items: &mut [T]) {
        for k in (1..items.len()).rev() {
            items.swap(k, self.below(k + 1));
        }
    }

    pub fn pick<'a, T>(&mut self, items: &'a [T]) -> &'a T {
        &items[self.below(items.len())]
    }
}

/// The seed of this run: HC_SEED, a number or the word `clock`. It is printed past the test
/// harness, so that a passing run shows it too.
pub fn seed(test: &str) -> u64 {
    let seed = match env::var("HC_SEED") {
        Err(_) => DEFAULT_SEED,
        Ok(word) if word == "clock" => clock(),
        Ok(word) => word.parse().expect("HC_SEED is a number or `clock`"),
    };
    // one write, so that the harness's lines do not come in between
    let line = format!("{}: HC_SEED={}\n", test, seed);
    let _ = io::stderr().write_all(line.as_bytes());
    seed
}

fn clock() -> u64 {
    let now = SystemTime::now().duration_since(UNIX_EPOCH);
    now.map(|time| time.as_nanos() as u64).unwrap_or(0)
}

/// HC_CASES is the number of small tables of one test; larger tables cost more and are fewer.
pub fn cases(size: Size) -> usize {
    let small = match env::var("HC_CASES") {
        Err(_) => DEFAULT_CASES,
        Ok(word) => word.parse().expect("HC_CASES is a number"),
    };
    let share = match size {
        Size::Small => small,
        Size::Medium => small / 8,
        Size::Large => small / 80,
    };
    share.max(1)
}

/// Whether enough cases run for a test to demand that each kind of answer was seen.
pub fn full_run() -> bool {
    cases(Size::Small) >= DEFAULT_CASES
}
