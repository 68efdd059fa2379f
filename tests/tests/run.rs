//! ./run, with another tool in the place of rt: what it says while it proves, when it proves again, and how it ends.

use std::env;
use std::fs;
use std::io::Write;
use std::os::unix::fs::PermissionsExt;
use std::path::{Path, PathBuf};
use std::process::{Command, Output, Stdio};

use hermitcasket_tests::scratch::Scratch;

const CRATES: &str = "# what is here\nbase:\nother: base\nlink: base\nhermitcasket: link base io\n";

fn write_tool(path: &Path, script: &str) {
    fs::write(path, script).expect("a tool");
    fs::set_permissions(path, fs::Permissions::from_mode(0o755)).expect("a tool that runs");
}

/// A folder with ./run, a list of crates, and an rt that proves nothing. It ends as the file `end` says; where that is
/// 0 it builds a program that prints the file `answer` and what it was given.
fn folder(label: &str, answer: &str) -> Scratch {
    let folder = Scratch::new(&format!("run-{}", label));
    let parts = [
        "bin",
        "crates/base/src",
        "crates/base/out/rlib",
        "crates/link/src",
        "crates/other/src",
        "crates/hermitcasket",
    ];
    for part in parts {
        fs::create_dir_all(folder.join(part)).expect("a folder");
    }
    fs::write(folder.join("crates/base/src/lib.rt"), "").expect("a source");
    fs::write(folder.join("crates/other/src/lib.rt"), "").expect("a source");
    fs::write(folder.join("crates.txt"), CRATES).expect("crates.txt");
    fs::write(folder.join("answer"), answer).expect("an answer");
    fs::write(folder.join("end"), "0").expect("a status");
    let run = Path::new(env!("CARGO_MANIFEST_DIR")).join("../run");
    fs::copy(run, folder.join("run")).expect("run");
    let rt = "#!/bin/bash\n\
              [ \"$*\" = run ] && [ \"${PWD##*/crates/}\" = hermitcasket ] || exit 9\n\
              top=${PWD%/crates/*}\n\
              echo 'rt: chose --jobs 1 for base'; echo 'fn base::one: proved'\n\
              echo 'crate base: modules loaded=0 checked=3'; echo 'logic=proved functions=1'\n\
              end=$(cat \"$top/end\")\n\
              if [ $end != 0 ]; then echo 'fn link::two: not proved: a fact'; echo 'logic=not-proved'; exit $end; fi\n\
              if ! [ -e \"$top/kept\" ]; then\n\
              echo 'library base: modules loaded=3 checked=0'; echo 'crate link: modules loaded=0 checked=2'; echo 'logic=proved functions=1'\n\
              fi\n\
              mkdir -p out\n\
              printf '#!/bin/sh\\ncat \"%s/answer\" -\\n' \"$top\" >out/hermitcasket\n\
              chmod 755 out/hermitcasket\n\
              echo 'library link: modules loaded=3 checked=0'; echo 'crate hermitcasket: modules loaded=0 checked=5'\n\
              echo 'logic=proved functions=3 target=x86_64'; echo 'rt: running out/hermitcasket'; out/hermitcasket\n";
    write_tool(&folder.join("bin/rt"), rt);
    folder
}

fn run_with(folder: &Path, words: &[&str], card: &[u8]) -> Output {
    let tools = env::var("PATH").expect("a path to bash and its tools");
    let path = format!("{}:{}", folder.join("bin").display(), tools);
    let mut command = Command::new("bash");
    command.arg(folder.join("run")).args(words).env("PATH", path);
    command.stdin(Stdio::piped()).stdout(Stdio::piped()).stderr(Stdio::piped());
    let mut child = command.spawn().expect("run");
    // where it ends without reading, nobody takes the card
    let _ = child.stdin.take().expect("its input").write_all(card);
    child.wait_with_output().expect("its end")
}

fn run(folder: &Path) -> Output {
    run_with(folder, &[], b"")
}

fn said(output: &Output) -> String {
    String::from_utf8(output.stderr.clone()).expect("plain text")
}

fn status(output: &Output) -> i32 {
    output.status.code().expect("a status")
}

#[test]
fn each_answer_has_its_status() {
    for (label, answer, due) in [
        ("filled", "answer=filled\nblanks=0\n", 0),
        ("shown", "things=1\n", 0),
        ("none", "answer=none\n", 1),
        ("refused", "answer=refused\nnumber=13\nplace=0\n", 2),
        ("nothing", "", 3),
        ("other", "answer=maybe\n", 3),
    ] {
        let output = run(&folder(label, answer));
        assert_eq!(status(&output), due, "{}: {}", label, said(&output));
        assert_eq!(String::from_utf8(output.stdout).expect("plain text"), answer, "{}", label);
    }
}

/// The card is for the program, and not for rt before it.
#[test]
fn the_program_is_given_the_card() {
    let output = run_with(&folder("card", "answer=none\n"), &[], b"blanks=0\n");
    assert_eq!(output.stdout, b"answer=none\nblanks=0\n");
}

#[test]
fn it_says_how_far_it_is() {
    let folder = folder("progress", "answer=none\n");
    let first = said(&run(&folder));
    let lines: Vec<&str> = first.lines().collect();
    assert_eq!(lines.len(), 4, "{}", first);
    assert!(
        lines[0].starts_with("run: the first time: proving 3 crates, some ten minutes "),
        "{}",
        first
    );
    assert!(lines[0].ends_with(": base link hermitcasket"), "{}", first);
    for (line, start, end) in [
        (lines[1], "run: 1 of 3 after ", " s: base proved; to go: link hermitcasket"),
        (lines[2], "run: 2 of 3 after ", " s: link proved; to go: hermitcasket"),
        (lines[3], "run: 3 of 3 after ", " s: hermitcasket proved"),
    ] {
        assert!(line.starts_with(start) && line.ends_with(end), "{}", first);
    }
    assert_eq!(said(&run(&folder)), "", "then it is silent");
    // rt says nothing of a library that stands as it was last proved
    fs::write(folder.join("kept"), "").expect("a mark");
    make_newer(folder.join("crates.txt"));
    let again = said(&run(&folder));
    let lines: Vec<&str> = again.lines().collect();
    assert_eq!(lines.len(), 3, "{}", again);
    assert!(lines[1].starts_with("run: 1 of 3 after "), "{}", again);
    assert!(lines[2].starts_with("run: 3 of 3 after "), "{}", again);
}

fn make_newer(path: PathBuf) {
    let touched = Command::new("touch").args(["-d", "+1 hour"]).arg(path).status();
    assert!(touched.expect("touch").success());
}

#[test]
fn it_proves_again_where_a_source_is_newer() {
    for (label, source, due) in [
        ("newer", "crates/base/src/lib.rt", true),
        ("list", "crates.txt", true),
        ("elsewhere", "crates/other/src/lib.rt", false),
        ("made", "crates/base/out/rlib", false),
    ] {
        let folder = folder(label, "answer=none\n");
        run(&folder);
        make_newer(folder.join(source));
        let again = said(&run(&folder));
        assert_eq!(
            again.contains("a source is newer than the program"),
            due,
            "{}: {}",
            label,
            again
        );
    }
}

/// Neither without a program nor with an old one: what is not proved is not run.
#[test]
fn what_is_not_proved_is_not_run() {
    let folder = folder("unproved", "answer=none\n");
    fs::write(folder.join("end"), "1").expect("a status");
    for step in ["no program", "an old program"] {
        let output = run(&folder);
        assert_eq!((status(&output), output.stdout.len()), (3, 0), "{}: {}", step, said(&output));
        assert!(
            said(&output).contains("link::two: not proved: a fact"),
            "{}: {}",
            step,
            said(&output)
        );
        assert!(
            said(&output).ends_with("run: not proved, so there is no program to run\n"),
            "{}",
            step
        );
        fs::write(folder.join("end"), "0").expect("a status");
        assert_eq!(status(&run(&folder)), 1);
        fs::write(folder.join("end"), "1").expect("a status");
        make_newer(folder.join("crates/base/src/lib.rt"));
    }
}

/// A card may be named. One that cannot be read is no answer, which a shell would make of `./run < CARD`.
#[test]
fn a_card_may_be_named() {
    let folder = folder("a name with spaces", "answer=none\n");
    fs::write(folder.join("a card"), "blanks=0\n").expect("a card");
    let named = folder.join("a card");
    let output = run_with(&folder, &[named.to_str().expect("a plain path")], b"other");
    assert_eq!((status(&output), output.stdout), (1, b"answer=none\nblanks=0\n".to_vec()));
    for words in [&["missing"][..], &["bin"], &["a", "b"]] {
        let output = run_with(&folder, words, b"");
        assert_eq!((status(&output), output.stdout.len()), (3, 0), "{:?}", words);
    }
}

/// A source that is written while rt is at work is newer than the program.
#[test]
fn an_edit_during_the_proof_is_not_lost() {
    let folder = folder("meanwhile", "answer=none\n");
    let rt = fs::read_to_string(folder.join("bin/rt")).expect("rt");
    let edits = rt.replace(
        "mkdir -p",
        "cd $top; [ -e edited ] || touch crates/base/src/lib.rt edited; cd -\nmkdir -p",
    );
    assert_ne!(rt, edits);
    write_tool(&folder.join("bin/rt"), &edits);
    run(&folder);
    assert!(said(&run(&folder)).contains("a source is newer than the program"));
    assert_eq!(said(&run(&folder)), "", "then it is silent");
}

#[test]
fn without_rt_it_says_so() {
    let folder = folder("no rt", "answer=none\n");
    let tools = folder.join("tools");
    fs::create_dir_all(&tools).expect("a folder");
    for tool in ["bash", "dirname", "readlink", "mktemp", "awk", "rm", "cat"] {
        let found = Command::new("bash").args(["-c", &format!("command -v {}", tool)]).output();
        let path = String::from_utf8(found.expect("bash").stdout).expect("plain text");
        std::os::unix::fs::symlink(path.trim(), tools.join(tool)).expect("a link");
    }
    let mut command = Command::new(tools.join("bash"));
    let output = command.arg(folder.join("run")).env("PATH", &tools).output().expect("run");
    assert_eq!((status(&output), output.stdout.len()), (3, 0), "{}", said(&output));
    assert!(
        said(&output).contains("rt, the command of the Rattle kit, is not on the path"),
        "{}",
        said(&output)
    );
}

/// From another folder, through a link, with CDPATH set.
#[test]
fn it_finds_its_own_folder() {
    let folder = folder("linked", "answer=none\n");
    let link = folder.join("elsewhere");
    std::os::unix::fs::symlink(folder.join("run"), &link).expect("a link");
    let path = format!("{}:{}", folder.join("bin").display(), env::var("PATH").expect("a path"));
    let mut command = Command::new("bash");
    command.arg(&link).env("PATH", path).env("CDPATH", "/").current_dir("/");
    let output = command.stdin(Stdio::null()).output().expect("run");
    assert_eq!(status(&output), 1, "{}", said(&output));
}
