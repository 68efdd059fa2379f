//! On a thread with too little stack a call ends the program at the guard page, as Rust's own code would; it
//! does not run on into other memory.

use std::env;
use std::os::unix::process::ExitStatusExt;
use std::process::Command;
use std::thread;

use hermitcasket::{limits, Tables};

const ABORTED: i32 = 6;

/// A search on a thread with so much stack as HC_STACK says, or as much as one needs. The other test runs this
/// one in a program of its own.
#[test]
fn enough_stack_gives_an_answer() {
    let enough = limits::STACK + (64 << 10);
    let bytes = env::var("HC_STACK").map_or(enough, |bytes| bytes.parse().expect("a number"));
    let tables = Tables {
        concepts: &[1, 7, 0, 4, 0, 0],
        questions: &[1, 0],
        variables: 1,
        ..Tables::default()
    };
    let thread = thread::Builder::new().stack_size(bytes);
    let handle = thread.spawn(move || tables.find_assignment()).expect("a thread");
    assert_eq!(handle.join().expect("an answer"), Ok(Some(vec![1])));
}

#[test]
fn too_little_stack_ends_the_program() {
    let run = |bytes: usize| {
        let mut command = Command::new(env::current_exe().expect("this program"));
        command
            .args(["--exact", "enough_stack_gives_an_answer"])
            .env("HC_STACK", bytes.to_string());
        command.output().expect("this program again")
    };
    assert!(run(limits::STACK + (64 << 10)).status.success());
    for bytes in [64 << 10, 128 << 10, 256 << 10] {
        let output = run(bytes);
        assert_eq!(output.status.signal(), Some(ABORTED), "{} bytes", bytes);
        let said = String::from_utf8_lossy(&output.stderr);
        assert!(said.contains("overflowed its stack"), "{}", said);
    }
}
