//! Tools of others, timed as processes: start, reading and writing of files included.

pub mod clasp;
pub mod konclude;

use std::env;
use std::fs::{self, File};
use std::io;
use std::path::{Path, PathBuf};
use std::process::{Command, Stdio};
use std::thread::sleep;
use std::time::{Duration, Instant};

const RUNS: usize = 3;
pub const LIMIT: Duration = Duration::from_secs(5);

/// What a tool said, and how long it took; no answer where it took too long.
pub struct Timed<A> {
    pub answer: Option<A>,
    pub micros: f64,
}

/// The fastest of some runs; one run that is stopped is enough.
fn best<A>(mut run: impl FnMut() -> Option<(A, Duration)>) -> Timed<A> {
    let mut best = Timed { answer: None, micros: f64::MAX };
    for _ in 0..RUNS {
        match run() {
            Some((answer, time)) => {
                let micros = time.as_secs_f64() * 1e6;
                best = Timed { answer: Some(answer), micros: micros.min(best.micros) };
            }
            None => return Timed { answer: None, micros: LIMIT.as_secs_f64() * 1e6 },
        }
    }
    best
}

/// A folder of its own for the files of one run of the program.
pub struct Scratch {
    folder: PathBuf,
}

impl Scratch {
    pub fn new() -> io::Result<Scratch> {
        let folder = env::temp_dir().join(format!("hermitcasket-bench-{}", std::process::id()));
        fs::create_dir_all(&folder)?;
        Ok(Scratch { folder })
    }

    pub fn file(&self, name: &str) -> PathBuf {
        self.folder.join(name)
    }
}

impl Drop for Scratch {
    fn drop(&mut self) {
        let _ = fs::remove_dir_all(&self.folder);
    }
}

/// Runs a command with its output in a file; how long it took, or nothing where that is over the
/// limit.
fn run(command: &mut Command, output: &Path, limit: Duration) -> Option<Duration> {
    let file = File::create(output).expect("an output file");
    let start = Instant::now();
    let mut child = command
        .stdin(Stdio::null())
        .stdout(file)
        .stderr(Stdio::null())
        .spawn()
        .expect("the tool starts");
    while child.try_wait().expect("the tool can be waited for").is_none() {
        if start.elapsed() > limit {
            let _ = child.kill();
            let _ = child.wait();
            return None;
        }
        sleep(Duration::from_micros(100));
    }
    Some(start.elapsed())
}
