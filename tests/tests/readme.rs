//! What README.md, the documents beside it and examples/README.md show is run: the lines of C and Rust, the derivation, the
//! cards. explain/tests/explain.rs runs what README shows of explain.

use std::fs;
use std::path::{Path, PathBuf};
use std::process::{Command, Output};

use hermitcasket_tests::capi::{self, Answer};
use hermitcasket_tests::cited::documents;
use hermitcasket_tests::process;
use hermitcasket_tests::tables::Tables;

fn root() -> PathBuf {
    Path::new(env!("CARGO_MANIFEST_DIR")).join("..")
}

fn read(path: &str) -> String {
    fs::read_to_string(root().join(path)).unwrap_or_else(|error| panic!("{}: {}", path, error))
}

fn run(command: &mut Command) -> Output {
    let output = command.output();
    let output = output.unwrap_or_else(|error| panic!("{:?}: {}", command, error));
    let said = String::from_utf8_lossy(&output.stderr);
    let wrote = String::from_utf8_lossy(&output.stdout);
    assert!(output.status.success(), "{:?}: {}\n{}{}", command, output.status, wrote, said);
    output
}

/// Heading and text of each section.
fn sections(text: &str) -> Vec<(&str, &str)> {
    text.split("\n## ").skip(1).filter_map(|section| section.split_once('\n')).collect()
}

fn section<'a>(text: &'a str, heading: &str) -> &'a str {
    let found = sections(text).into_iter().find(|(of, _)| *of == heading);
    found.unwrap_or_else(|| panic!("no section {}", heading)).1
}

/// The blocks of lines that are set off by four spaces, without these.
fn blocks(section: &str) -> Vec<String> {
    let mut blocks: Vec<String> = Vec::new();
    let mut inside = false;
    for line in section.lines() {
        match line.strip_prefix("    ") {
            Some(text) if inside => *blocks.last_mut().expect("a block") += &format!("{}\n", text),
            Some(text) => blocks.push(format!("{}\n", text)),
            None => {}
        }
        inside = line.starts_with("    ");
    }
    blocks
}

/// The condition of a line that is a comment and asks for one: its words up to a colon.
fn condition(line: &str) -> Option<&str> {
    let comment = line.trim().strip_prefix("/*")?.strip_suffix("*/")?;
    let words = comment.split(':').next().unwrap_or(comment).trim();
    Some(words).filter(|words| words.contains(" == "))
}

/// A program of the lines, each comment asked as a condition behind the line before it.
fn program(lines: &str) -> String {
    let (includes, body): (Vec<&str>, Vec<&str>) =
        lines.lines().partition(|line| line.starts_with("#include"));
    let asked = |line: &&str| match condition(line) {
        Some(condition) => format!("if (!({0})) return puts(\"{0}\"), 1;\n", condition),
        None => format!("{}\n", line),
    };
    let body: String = body.iter().map(asked).collect();
    format!("{}\n#include <stdio.h>\nint main(void)\n{{\n{}}}\n", includes.join("\n"), body)
}

/// Compiles lines of C as one program and runs it. Each call of an operation is followed by a comment that says what is
/// then so. How many calls there are.
fn run_c(label: &str, lines: &str) -> usize {
    let lines_of_code: Vec<&str> = lines.lines().collect();
    let calls = |line: &&&str| line.contains(" = hc_");
    for (at, line) in lines_of_code.iter().enumerate().filter(|(_, line)| calls(line)) {
        let next = lines_of_code.get(at + 1).copied().unwrap_or_default();
        assert!(condition(next).is_some(), "nothing is said of {}", line);
    }
    let folder = PathBuf::from(env!("CARGO_TARGET_TMPDIR"));
    let (source, compiled) = (folder.join(format!("{}.c", label)), folder.join(label));
    fs::write(&source, program(lines)).expect("a C file");
    run(Command::new("cc")
        .args(["-std=c99", "-Wall", "-Wextra", "-Wpedantic", "-Werror", "-I"])
        .arg(root().join("include"))
        .arg(&source)
        .arg(env!("HC_ARCHIVE"))
        .arg("-o")
        .arg(&compiled));
    run(&mut Command::new(&compiled));
    lines_of_code.iter().filter(calls).count()
}

fn is_c(block: &String) -> bool {
    block.contains(" = hc_") || block.contains("uint")
}

/// All lines of C of the guide make up one program; every function of the header is called in it.
#[test]
fn the_guide_does_what_its_comments_say() {
    let guide = read("docs/GUIDE.md");
    let lines: String = blocks(&guide).into_iter().filter(is_c).collect();
    let calls = run_c("guide", &lines);
    assert!(calls >= 40, "{} calls in\n{}", calls, lines);
    let header = read("include/hermitcasket.h");
    let names = header.lines().filter_map(|line| {
        let words = line.strip_prefix("hc_")?.split_once(" hc_")?.1;
        Some(format!("hc_{}", words.split('(').next()?))
    });
    let names: Vec<String> = names.collect();
    assert_eq!(names.len(), 18, "{:?}", names);
    for name in names {
        assert!(lines.contains(&format!(" = {}(", name)), "the guide does not call {}", name);
    }
}

/// README's way to C: the lines do what their comments say, and the command builds the example and prints its lines.
#[test]
fn readme_leads_to_c() {
    let readme = read("README.md");
    let shown = blocks(section(&readme, "From C"));
    assert_eq!(run_c("readme", &shown[1]), 3);
    let commands: Vec<&str> = shown[0].lines().collect();
    assert_eq!((commands.len(), commands[0]), (2, "(cd crates/capi && rt lib)"));
    let output = run(Command::new("bash").args(["-c", commands[1]]).current_dir(root()));
    let printed = String::from_utf8(output.stdout).expect("plain text");
    assert_eq!(printed, read("examples/card.lines"));
}

/// README's lines of Rust are those of the crate's documentation, which runs as a test.
#[test]
fn readme_leads_to_rust() {
    let readme = read("README.md");
    let shown = blocks(section(&readme, "From Rust"));
    let shown = shown.into_iter().find(|block| block.starts_with("use hermitcasket"));
    let source = read("rust/src/lib.rs");
    let example = source.split("//! ```\n").nth(1).expect("an example");
    let lines = example.lines().map(|line| line.trim_start_matches("//!"));
    let lines = lines.map(|line| line.strip_prefix(' ').unwrap_or(line));
    let due: String = lines
        .filter(|line| !line.is_empty() && !line.starts_with("# "))
        .map(|line| format!("{}\n", line))
        .collect();
    assert_eq!(shown.expect("lines of Rust"), due);
}

/// README names every function of the header, and the one of the safe crate beside it.
#[test]
fn readme_names_every_operation() {
    let (readme, header) = (read("README.md"), read("include/hermitcasket.h"));
    let modules = [
        "tables",
        "subsumption",
        "matching",
        "derivations",
        "countermodel",
        "incremental",
        "renumbering",
        "owl",
    ];
    let rust: String =
        modules.iter().map(|module| read(&format!("rust/src/{}.rs", module))).collect();
    let names =
        |cell: &str| cell.split('`').skip(1).step_by(2).map(String::from).collect::<Vec<_>>();
    let mut of_c = Vec::new();
    for row in section(&readme, "What it does").lines().filter(|line| line.contains("`hc_")) {
        let cells: Vec<&str> = row.split(" | ").collect();
        if !row.starts_with('|') {
            continue;
        }
        let functions: Vec<String> =
            names(cells[1]).into_iter().filter(|name| name.starts_with("hc_")).collect();
        assert_eq!(functions.len(), names(cells[2]).len(), "{}", row);
        for name in names(cells[2]) {
            assert!(rust.contains(&format!("pub fn {}(", name)), "{}", row);
        }
        of_c.extend(functions);
    }
    assert!(of_c.iter().all(|name| header.contains(&format!(" {}(", name))), "{:?}", of_c);
    assert_eq!(of_c.len(), 18, "{:?}", of_c);
}

/// The lines of the section on derivations, under the choice that it names.
#[test]
fn the_derivation_is_accepted() {
    let formats = read("docs/FORMATS.md");
    let shown = blocks(section(&formats, "Derivations")).concat();
    let first_four = |line: &str| {
        let words = line.split_whitespace().take(4);
        words.map(|word| word.parse().ok()).collect::<Option<Vec<u16>>>()
    };
    let lines: Vec<u16> = shown.lines().filter_map(first_four).flatten().collect();
    assert_eq!(lines.len(), 12, "{}", shown);
    let rows = [[1, 5, 0], [1, 7, 0], [2, 1, 0], [1, 9, 0], [4, 0, 0], [3, 1, 4]];
    let tables = Tables::new(&rows, &[[2, 3]], &[[5, 3], [2, 4]], 1);
    let answer = capi::check_derivation(tables.lend(), &[4], (5, 3), &lines);
    assert_eq!(answer, Answer::done(0), "{}", shown);
}

/// What a line of the shell prints at the top folder, and its exit status.
fn printed(line: &str, program: &str) -> (String, Option<i32>) {
    let missing = format!("{0} is missing: run rt run in crates/{0} first", program);
    assert!(process::path(program).is_file(), "{}", missing);
    let output =
        Command::new("bash").args(["-c", line]).current_dir(root()).output().expect("bash");
    (String::from_utf8(output.stdout).expect("plain text"), output.status.code())
}

/// What ./run prints for a card; its status says which kind of answer that is.
fn answer(card: &str) -> String {
    let (answer, status) = printed(&format!("./run < examples/{}", card), "hermitcasket");
    let first = answer.lines().next().unwrap_or_default();
    let due = match first.split('=').collect::<Vec<&str>>()[..] {
        ["answer", "filled"] | ["things", _] => 0,
        ["answer", "none"] => 1,
        ["answer", "refused"] => 2,
        _ => 3,
    };
    assert_eq!(status, Some(due), "{}", answer);
    answer
}

/// The program for suppliers, as the documents call it.
const OWL: &str = "crates/hermitcasket_owl/out/hermitcasket_owl";

/// The house text of a catalogue.
fn house_text(catalogue: &str) -> String {
    let line = format!("{} < examples/{}", OWL, catalogue);
    printed(&line, "hermitcasket_owl").0
}

/// README's commands print what stands below them.
#[test]
fn the_commands_print_what_is_shown() {
    let readme = read("README.md");
    for (heading, due) in [("Two commands", "answer=filled"), ("A none, believed", "answer=none")] {
        let shown = blocks(section(&readme, heading));
        let card =
            shown[0].trim().strip_prefix("./run < examples/").expect("a command with a card");
        assert_eq!(answer(card), shown[1]);
        assert!(shown[1].starts_with(due), "{}", shown[1]);
    }
    legend("brioche.txt", section(&readme, "A card, answered"));
}

/// What README and all other documents lead to is there.
#[test]
fn links_lead_somewhere() {
    let mut count = 0;
    let others = ["examples/README.md", "tests/README.md", "bench/README.md"];
    let documents = documents().into_iter().map(|document| document.name);
    for document in documents.chain(others.map(String::from)) {
        let text = read(&document);
        let folder = root().join(Path::new(&document).parent().expect("a folder"));
        for target in text.split("](").skip(1).filter_map(|rest| rest.split(')').next()) {
            let (path, heading) = target.split_once('#').unwrap_or((target, ""));
            let file = if path.is_empty() { root().join(&document) } else { folder.join(path) };
            assert!(file.exists(), "{} leads to {}", document, target);
            if !heading.is_empty() {
                let there = fs::read_to_string(&file).expect("a document");
                let anchor = |title: &str| -> String {
                    let kept = title.to_lowercase().replace(' ', "-");
                    kept.chars().filter(|&c| c.is_alphanumeric() || c == '-').collect()
                };
                let found = sections(&there).iter().any(|(title, _)| anchor(title) == heading);
                assert!(found, "{} leads to {}", document, target);
            }
            count += 1;
        }
    }
    assert!(count >= 50, "{} links", count);
}

/// The supplier's catalogue stands in the guide as it is in its file, and the command prints what stands
/// below it. What is printed can be piped on.
#[test]
fn the_catalogue_is_printed_as_shown() {
    let guide = read("docs/GUIDE.md");
    let shown = blocks(section(&guide, "Catalogues from suppliers"));
    assert_eq!(shown[0], read("examples/supplier.ofn"));
    let line = format!("{} < examples/supplier.ofn", OWL);
    assert_eq!(shown[1].trim(), line);
    assert_eq!(house_text("supplier.ofn"), shown[2]);
    let piped = printed(&format!("{} | ./run", line), "hermitcasket");
    assert_eq!(piped, ("answer=filled\nblanks=0\n".to_string(), Some(0)));
}

/// The card over it has the catalogue's entries first and its inclusions.
#[test]
fn the_card_holds_the_catalogue() {
    let lists = |text: &str| {
        let lines: Vec<String> = text.lines().map(String::from).collect();
        let at = |key: &str| lines.iter().position(|line| line.starts_with(key)).expect("a key");
        let [entries, inclusions, questions] = ["entries=", "inclusions=", "questions="].map(at);
        (lines[entries + 1..inclusions].to_vec(), lines[inclusions..questions].to_vec())
    };
    let (entries, inclusions) = lists(&house_text("supplier.ofn"));
    let (of_card, pairs) = lists(&read("examples/supplied.txt"));
    assert_eq!(of_card[..entries.len()], entries[..]);
    assert_eq!(pairs, inclusions);
    assert!(of_card.len() > entries.len() && !inclusions.is_empty());
}

/// The cards of examples/, by name.
fn cards() -> Vec<String> {
    let files = fs::read_dir(root().join("examples")).expect("a folder of cards");
    let name = |file: fs::DirEntry| file.file_name().into_string().expect("a plain name");
    let mut names: Vec<String> = files.map(|file| name(file.expect("a file"))).collect();
    names.retain(|name| name.ends_with(".txt"));
    names.sort();
    names
}

/// Each card has a section with its answer, and each answer has a card.
#[test]
fn each_card_prints_its_answer() {
    let text = read("examples/README.md");
    let mut seen = Vec::new();
    for (heading, section) in sections(&text) {
        let card = heading.split(':').next().unwrap_or(heading);
        if card.ends_with(".ofn") {
            assert_eq!(blocks(section)[0], house_text(card), "{}", card);
            continue;
        }
        assert_eq!(blocks(section), [answer(card)], "{}", card);
        legend(card, section);
        seen.push(card.to_string());
    }
    seen.sort();
    assert_eq!(seen, cards());
    assert!(seen.len() >= 5, "{:?}", seen);
}

/// What a section says of a card's lines: they stand there, in the table at the id's place.
fn legend(card: &str, section: &str) {
    let text = read(&format!("examples/{}", card));
    let lines: Vec<&str> = text.lines().collect();
    let entries = lines.iter().position(|line| line.starts_with("entries=")).expect("entries");
    for quoted in section.split('`').skip(1).step_by(2).filter(|quoted| quoted.contains('=')) {
        assert!(lines.contains(&quoted), "{} has no line {}", card, quoted);
    }
    for row in section.lines() {
        let cells: Vec<&str> = row.split('|').map(str::trim).collect();
        if let Some(Ok(id)) = cells.get(1).map(|cell| cell.parse::<usize>()) {
            assert_eq!(cells[2].trim_matches('`'), lines[entries + 1 + id], "{}, id {}", card, id);
        }
    }
}
