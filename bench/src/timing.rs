//! Times of two or more ways to do one thing, taken in turn, so that a change of the machine's
//! speed meets all of them. The fastest round counts, since other work on the machine only adds.

use std::time::Instant;

const ROUNDS: usize = 100;
/// About how long one round takes, and after how long no further round is begun.
const ROUND_MICROS: f64 = 2000.0;
const MOST_MICROS: f64 = 2e6;

/// Microseconds of one call.
#[derive(Clone, Copy)]
pub struct Times {
    pub proved: f64,
    pub plain: f64,
}

impl Times {
    pub fn ratio(self) -> f64 {
        self.proved / self.plain
    }
}

/// One of the ways.
struct Timer<F> {
    run: F,
    calls: usize,
    spent: f64,
    best: f64,
}

impl<F: FnMut()> Timer<F> {
    fn new(run: F) -> Self {
        let mut timer = Timer { run, calls: 1, spent: 0.0, best: f64::MAX };
        timer.round();
        if timer.best < ROUND_MICROS {
            // the first call is often slower than the others
            timer.calls = 3;
            timer.round();
        }
        timer.calls = ((ROUND_MICROS / timer.best) as usize).max(1);
        timer
    }

    fn round(&mut self) {
        let start = Instant::now();
        for _ in 0..self.calls {
            (self.run)();
        }
        let micros = start.elapsed().as_secs_f64() * 1e6;
        self.spent += micros;
        self.best = self.best.min(micros / self.calls as f64);
    }

    fn round_in_time(&mut self) {
        if self.spent < MOST_MICROS {
            self.round();
        }
    }
}

/// Microseconds of one call of each.
pub fn measure_all<const N: usize>(runs: [&mut dyn FnMut(); N]) -> [f64; N] {
    let mut timers = runs.map(Timer::new);
    for _ in 0..ROUNDS {
        timers.iter_mut().for_each(Timer::round_in_time);
    }
    timers.map(|timer| timer.best)
}

pub fn measure(mut proved: impl FnMut(), mut plain: impl FnMut()) -> Times {
    let [proved, plain] = measure_all([&mut proved, &mut plain]);
    Times { proved, plain }
}

/// Three digits, or all before the point.
pub fn three_digits(number: f64) -> String {
    let digits = match number {
        n if n < 9.995 => 2,
        n if n < 99.95 => 1,
        _ => 0,
    };
    format!("{:.*}", digits, number)
}

/// With a unit.
pub fn in_words(micros: f64) -> String {
    let (number, unit) = match micros {
        m if m < 1e3 => (m, "us"),
        m if m < 1e6 => (m / 1e3, "ms"),
        m => (m / 1e6, "s"),
    };
    format!("{} {}", three_digits(number), unit)
}
