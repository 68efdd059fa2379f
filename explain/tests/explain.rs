//! The program as it is run: what it says of the example cards, its options, and how it ends.

use std::env;
use std::fs;
use std::path::{Path, PathBuf};
use std::process::Command;

fn root() -> PathBuf {
    Path::new(env!("CARGO_MANIFEST_DIR")).join("..")
}

fn read(path: &str) -> String {
    fs::read_to_string(root().join(path)).unwrap_or_else(|error| panic!("{}: {}", path, error))
}

/// What is printed, what is said beside it, and the exit status, at the top folder.
fn explain(words: &[&str]) -> (String, String, i32) {
    let mut command = Command::new(env!("CARGO_BIN_EXE_explain"));
    let output = command.args(words).current_dir(root()).output().expect("explain");
    let text = |bytes| String::from_utf8(bytes).expect("plain text");
    (text(output.stdout), text(output.stderr), output.status.code().expect("a status"))
}

/// A file with this text, for one test.
fn file(label: &str, text: &str) -> String {
    let path = PathBuf::from(env!("CARGO_TARGET_TMPDIR")).join(label);
    fs::write(&path, text).expect("a file");
    path.to_str().expect("a plain path").to_string()
}

const LEGEND: [&str; 2] = ["--legend", "examples/brioche.legend"];

/// The blocks of lines that are set off by four spaces, without these.
fn blocks(text: &str) -> Vec<String> {
    let mut blocks: Vec<String> = Vec::new();
    let mut inside = false;
    for line in text.lines() {
        if let Some(line) = line.strip_prefix("    ") {
            if !inside {
                blocks.push(String::new());
            }
            *blocks.last_mut().expect("a block") += &format!("{}\n", line);
        }
        inside = line.starts_with("    ");
    }
    blocks
}

/// README shows a yes and a no of the brioche card: each command prints the block behind it, and the picture is the
/// one that is drawn.
#[test]
fn what_readme_shows_is_printed() {
    let readme = blocks(&read("README.md"));
    let commands = readme.iter().enumerate().filter_map(|(at, block)| {
        let words = block.trim_end().strip_prefix("cargo run -q -p explain -- ")?;
        Some((words.split(' ').map(String::from).collect::<Vec<_>>(), &readme[at + 1]))
    });
    let mut statuses = Vec::new();
    for (words, due) in commands {
        let picture = file("stock.svg", "");
        let words: Vec<&str> = words
            .iter()
            .map(|word| if word == "docs/stock.svg" { picture.as_str() } else { word.as_str() })
            .collect();
        let (printed, said, status) = explain(&words);
        assert_eq!((&printed, said.as_str()), (due, ""), "{:?}", words);
        if words.contains(&"--picture") {
            let drawn = fs::read_to_string(&picture).expect("a picture");
            assert!(
                drawn == read("docs/stock.svg"),
                "docs/stock.svg is not what {:?} draws",
                words
            );
        }
        statuses.push(status);
    }
    assert_eq!(statuses, [0, 1], "a yes and a no");
}

#[test]
fn lines_of_a_file_are_told() {
    let lines = file("lines", "1 3 3 0\n7 4 3 3\n3,5,3,1\n");
    let (printed, said, status) = explain(&["examples/sample.txt", "5", "3", "--lines", &lines]);
    assert_eq!((said.as_str(), status), ("", 0));
    assert_eq!((printed, said, status), explain(&["examples/sample.txt", "5", "3"]));
}

/// Lines that show nothing are refused by the library's checker, before anything is told.
#[test]
fn wrong_lines_are_refused() {
    for (label, text, pair, due) in [
        ("no-lines", "", ["5", "3"], "refusal 12: the derivation has no lines"),
        (
            "broken",
            "7 4 3 3\n3 5 3 1\n",
            ["5", "3"],
            "refusal 12: line 0 does not follow by its rule",
        ),
        (
            "other",
            "1 3 3 0\n",
            ["5", "3"],
            "refusal 12: the last line is another pair (lines: 1)",
        ),
        ("never", "6 3 2 0\n", ["3", "2"], "refusal 12: line 0 does not follow by its rule"),
    ] {
        let [left, right] = pair;
        let path = file(label, text);
        let (printed, said, status) =
            explain(&["examples/sample.txt", left, right, "--lines", &path]);
        assert_eq!(
            (printed.as_str(), said, status),
            ("", format!("explain: {}\n", due), 2),
            "{}",
            label
        );
    }
}

#[test]
fn where_nothing_fills_the_card_blanks_are_anything() {
    let (printed, _, status) = explain(&["examples/plain.txt", "7", "1", LEGEND[0], LEGEND[1]]);
    let due = "nothing fills the card, so every blank is read as anything\n\
               blank 0: anything\n\
               \"dough and blank 0\" is not below \"rich\": all inclusions hold here, and thing 7 is of the one and not of the other\n  \
               thing 7 is dough\n  \
               (and 8 things more, to which none of these is linked)\n";
    assert_eq!((printed.as_str(), status), (due, 1));
}

/// With role pairs, links under several roles at once, and numbers where there is no legend.
#[test]
fn links_are_told() {
    let (printed, _, status) = explain(&["examples/doubt.txt", "5", "1"]);
    let due = "\"role 2 name 12\" is not below \"name 20\": all inclusions hold here, and thing 5 is of the one and not of the other\n  \
               thing 5 bears no name; role 1, role 2 thing 3\n  \
               thing 3 is name 12\n  \
               (and 5 things more, to which none of these is linked)\n";
    assert_eq!((printed.as_str(), status), (due, 1));
}

#[test]
fn refused_tables_are_refused() {
    let forward = read("examples/sample.txt").replace("some=1,0", "some=1,2");
    let path = file("forward.txt", &forward);
    let (printed, said, status) = explain(&[&path, "5", "3"]);
    let due = "explain: refusal 3: entry 2 has an inner id that is not smaller than its own\n";
    assert_eq!((printed.as_str(), said.as_str(), status), ("", due, 2));
    let (_, said, status) = explain(&["examples/sample.txt", "5", "6"]);
    assert_eq!((said.as_str(), status), ("explain: refusal 4: an asked id is no entry\n", 2));
}

#[test]
fn what_cannot_be_run_says_why() {
    let legend = file("odd.legend", "brioche\n");
    let lines = file("three", "1 3 3\n");
    let cases: [(&[&str], &str); 7] = [
        (&[], "explain CARD LEFT RIGHT"),
        (&["examples/sample.txt", "5"], "explain CARD LEFT RIGHT"),
        (&["examples/sample.txt", "5", "x"], "x is no id"),
        (&["examples/none.txt", "5", "3"], "examples/none.txt: "),
        (&["examples/sample.txt", "5", "3", "--legend"], "--legend wants a file"),
        (&["examples/sample.txt", "5", "3", "--legend", &legend], "line 1 is `brioche`"),
        (
            &["examples/sample.txt", "5", "3", "--lines", &lines],
            "line 0 (from 0) is not four numbers",
        ),
    ];
    for (words, due) in cases {
        let (printed, said, status) = explain(words);
        assert_eq!((printed.as_str(), status), ("", 3), "{:?}", words);
        assert!(said.starts_with("explain: ") && said.contains(due), "{:?}: {}", words, said);
    }
}

/// A text is refused exactly where the program refuses it as a text, with the same number and place.
#[test]
fn texts_are_judged_as_the_program_judges_them() {
    let program = root().join("crates/hermitcasket/out/hermitcasket");
    let text = read("examples/doubt.txt");
    let mut seen = [0, 0];
    for at in 0..text.len() {
        for (label, damage) in [("cut", ""), ("zero", "0"), ("line", "\n"), ("nine", "9")] {
            let end = if label == "cut" { text.len() } else { at + 1 };
            let damaged = format!("{}{}{}", &text[..at], damage, &text[end..]);
            let path = file("damaged.txt", &damaged);
            let input = fs::File::open(&path).expect("the card");
            let output = Command::new(&program).stdin(input).output().expect("the program");
            let answer = String::from_utf8(output.stdout).expect("plain text");
            let number = |key: &str| answer.lines().find_map(|line| line.strip_prefix(key));
            let (_, said, status) = explain(&[&path, "5", "1"]);
            let due = match (number("number="), number("place=")) {
                (Some("13"), Some(place)) => {
                    format!("refusal 13: off the layout of house text at byte {}\n", place)
                }
                // of a count, or of the tables, which say the same
                (Some("1"), Some(_)) => "refusal 1: over ".to_string(),
                _ => String::new(),
            };
            seen[usize::from(due.is_empty())] += 1;
            if due.is_empty() {
                assert!(
                    !said.contains("refusal 13") && !said.contains("refusal 1:"),
                    "{}{}",
                    damaged,
                    said
                );
            } else {
                assert!(said.contains(&due) && status == 2, "{}{}{}", damaged, answer, said);
            }
        }
    }
    assert!(seen[0] > 300 && seen[1] > 50, "{:?}", seen);
}

#[test]
fn nothing_is_drawn_of_a_yes() {
    let picture = file("untouched.svg", "as it was");
    let (_, said, status) = explain(&["examples/sample.txt", "5", "3", "--picture", &picture]);
    assert_eq!(
        (said.as_str(), status),
        ("explain: it is below, so there is no stock to draw\n", 0)
    );
    assert_eq!(fs::read_to_string(picture).expect("the file"), "as it was");
}
