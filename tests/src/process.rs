//! The programs, as rt builds them into the out/ of their crates, run as processes.

use std::io::{self, Write};
use std::path::{Path, PathBuf};
use std::process::{Child, Command, Stdio};
use std::thread;
use std::time::Duration;

/// Where a program is, by the name of its crate.
pub fn path(program: &str) -> PathBuf {
    let package = Path::new(env!("CARGO_MANIFEST_DIR"));
    package.join(format!("../crates/{0}/out/{0}", program))
}

pub fn start(program: &str) -> Child {
    let path = path(program);
    assert!(
        path.is_file(),
        "{} is missing: run rt run in crates/{} first",
        path.display(),
        program
    );
    let mut command = Command::new(&path);
    command.stdin(Stdio::piped()).stdout(Stdio::piped()).stderr(Stdio::piped());
    command.spawn().unwrap_or_else(|error| panic!("{:?}: {}", command, error))
}

/// All that the program prints when it is given the pieces one after another.
pub fn print_in_pieces(program: &str, pieces: &[&[u8]], pause: Duration) -> String {
    let mut child = start(program);
    let mut input = child.stdin.take().expect("a pipe");
    for piece in pieces {
        match input.write_all(piece).and_then(|()| input.flush()) {
            // it may stop reading once the text is too long
            Err(error) if error.kind() == io::ErrorKind::BrokenPipe => break,
            written => written.expect("a pipe takes the text"),
        }
        thread::sleep(pause);
    }
    drop(input);
    let ended = child.wait_with_output().expect("the program ends");
    assert!(ended.status.code().is_some(), "{}", ended.status);
    assert!(ended.stderr.is_empty(), "{}", String::from_utf8_lossy(&ended.stderr));
    String::from_utf8(ended.stdout).expect("the output is plain text")
}

pub fn print(program: &str, text: &[u8]) -> String {
    print_in_pieces(program, &[text], Duration::ZERO)
}
