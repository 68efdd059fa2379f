//! include/hermitcasket.h and the declarations of rust/src/raw.rs say the same, and the constants of both are the limits.

use std::collections::BTreeMap;
use std::fs;
use std::path::PathBuf;
use std::process::Command;

use hermitcasket::{limits, Reason};
use hermitcasket_tests::limits::*;

const HEADER: &str = include_str!("../../include/hermitcasket.h");
const RAW: &str = include_str!("../../rust/src/raw.rs");

/// A type as Rust writes it, of a parameter or field as C writes it.
fn of_c(declared: &str) -> String {
    let (words, length) = match declared.split_once('[') {
        Some((words, length)) => (words, Some(length.trim_end_matches(']'))),
        None => (declared, None),
    };
    let is_pointer = words.contains('*');
    let words: Vec<&str> = words.split(|c: char| c == ' ' || c == '*').collect();
    let is_const = words[0] == "const";
    let number = match words[usize::from(is_const)] {
        "uint8_t" => "u8",
        "uint16_t" => "u16",
        "uint32_t" => "u32",
        "uint64_t" => "u64",
        "size_t" => "usize",
        other => panic!("{} in {}", other, declared),
    };
    match (is_pointer, is_const, length) {
        (true, true, None) => format!("*const {}", number),
        (true, false, None) => format!("*mut {}", number),
        (false, false, None) => number.to_string(),
        (false, false, Some("HC_MAX_CARDS")) => format!("[{}; {}]", number, limits::BATCH),
        _ => panic!("{}", declared),
    }
}

fn one_line(text: &str) -> String {
    text.split_whitespace().collect::<Vec<&str>>().join(" ")
}

/// The type behind each colon.
fn types(list: &str) -> Vec<String> {
    let parts = list.split(", ").filter(|part| !part.is_empty());
    parts.map(|part| part.split_once(": ").expect("a type").1.trim().to_string()).collect()
}

/// Parameters and answer of each function.
type Functions = BTreeMap<String, (Vec<String>, String)>;

fn functions_of_c() -> Functions {
    let code = HEADER.split_once("extern \"C\" {").expect("declarations").1;
    let mut found = Functions::new();
    for part in code.split(';').filter(|part| part.trim_end().ends_with(')')) {
        let declared = one_line(part.rsplit("*/").next().expect("behind the comment"));
        let (start, list) = declared.split_once('(').expect("parameters");
        let (answer, name) = start.split_once(' ').expect("an answer and a name");
        let parameters = list.trim_end_matches(')').split(", ").map(of_c).collect();
        found.insert(name.to_string(), (parameters, answer.to_string()));
    }
    found
}

fn functions_of_rust() -> Functions {
    let of = |name: &str| format!("hc_{}", name.to_lowercase());
    let declared = |text: &str| -> Vec<(String, String, String)> {
        let functions = text.split(';').filter_map(|part| part.split_once("fn hc_"));
        let parts = functions.map(|(_, part)| one_line(part)).map(|part| {
            let (name, rest) = part.split_once('(').expect("parameters");
            let (list, answer) = rest.split_once(") -> ").expect("an answer");
            (format!("hc_{}", name), list.trim().trim_end_matches(',').to_string(), of(answer))
        });
        parts.collect()
    };
    let between = |start: &str, end: &str| {
        let behind = RAW.split_once(start).unwrap_or_else(|| panic!("no {}", start)).1;
        behind.split_once(end).unwrap_or_else(|| panic!("no {}", end)).0
    };
    let tables = one_line(between("$(fn $name(", "$($argument: $type),*"));
    let tables = types(tables.trim().trim_end_matches(','));
    let mut found = Functions::new();
    for (name, list, answer) in declared(between("\nwith_tables! {", "\n}\n")) {
        found.insert(name, ([tables.clone(), types(&list)].concat(), answer));
    }
    for (name, list, answer) in declared(between("\nextern \"C\" {", "\n}\n")) {
        found.insert(name, (types(&list), answer));
    }
    found
}

#[test]
fn the_declarations_agree() {
    let (of_c, of_rust) = (functions_of_c(), functions_of_rust());
    assert_eq!(of_c.len(), 18, "{:?}", of_c.keys());
    assert_eq!(of_c, of_rust);
}

/// The types of the fields, in order, behind `start` and before `end`.
fn fields(
    text: &str,
    start: &str,
    end: &str,
    separator: char,
    of: fn(&str) -> String,
) -> Vec<String> {
    let behind = text.rsplit_once(end).map_or(text, |(before, _)| before);
    let block = behind.rsplit_once(start).unwrap_or_else(|| panic!("no {}", start)).1;
    let parts = block.split(separator).map(one_line).filter(|part| !part.is_empty());
    parts.map(|part| of(&part)).collect()
}

#[test]
fn the_answers_agree() {
    for (of_c_name, of_rust_name, count) in
        [("hc_answer", "Answer", 3), ("hc_catalogue", "Catalogue", 4), ("hc_cards", "Cards", 6)]
    {
        let c = fields(HEADER, "typedef struct {", &format!("}} {};", of_c_name), ';', of_c);
        let start = format!("pub struct {} {{", of_rust_name);
        let behind = RAW.split_once(&start).expect("a struct").1;
        let body = behind.split_once("\n}").expect("its end").0;
        let lines = body.lines().map(str::trim).filter(|line| !line.is_empty());
        let field = |line: &str| {
            line.trim_end_matches(',').split_once(": ").expect("a field").1.to_string()
        };
        let rust: Vec<String> = lines.map(field).collect();
        assert_eq!(c.len(), count);
        assert_eq!(c, rust, "{}", of_c_name);
    }
}

/// The constants, by name. Those with a number of entries in brackets are asked for 7 of them.
fn constants() -> BTreeMap<String, u64> {
    let names: Vec<&str> = HEADER
        .lines()
        .filter_map(|line| line.strip_prefix("#define HC_"))
        .map(|rest| rest.split_whitespace().next().expect("a name"))
        .collect();
    let print = |name: &&str| {
        let of = name.replace("(entries)", "(7)");
        format!("printf(\"HC_{0} %llu\\n\", (unsigned long long)HC_{1});\n", name, of)
    };
    let body: String = names.iter().map(print).collect();
    let text =
        format!("#include <hermitcasket.h>\n#include <stdio.h>\nint main(void) {{ {} }}\n", body);
    let folder = PathBuf::from(env!("CARGO_TARGET_TMPDIR"));
    let (source, program) = (folder.join("constants.c"), folder.join("constants"));
    fs::write(&source, text).expect("a C file");
    let include = PathBuf::from(env!("CARGO_MANIFEST_DIR")).join("../include");
    let mut command = Command::new("cc");
    command.arg("-I").arg(include).arg(&source).arg("-o").arg(&program);
    assert!(command.status().expect("cc").success());
    let output = Command::new(&program).output().expect("the program");
    let printed = String::from_utf8(output.stdout).expect("plain text");
    let pair = |line: &str| {
        let (name, number) = line.split_once(' ').expect("a name and a number");
        (name.to_string(), number.parse().expect("a number"))
    };
    printed.lines().map(pair).collect()
}

/// The tests' own limits, which they ask of the library, are those of the header and of the safe crate.
#[test]
fn the_constants_are_the_limits() {
    let due: Vec<(&str, usize, usize)> = vec![
        ("HC_MAX_ENTRIES", MAX_CONCEPTS, limits::CONCEPTS),
        ("HC_MAX_INCLUSIONS", MAX_INCLUSIONS, limits::INCLUSIONS),
        ("HC_MAX_QUESTIONS", MAX_QUESTIONS, limits::QUESTIONS),
        ("HC_MAX_ROLE_PAIRS", MAX_ROLE_PAIRS, limits::ROLE_PAIRS),
        ("HC_MAX_BLANKS", MAX_VARIABLES, limits::VARIABLES),
        ("HC_MAX_NAME", usize::from(MAX_NAME), usize::from(limits::NAME)),
        ("HC_MAX_ROLE", usize::from(MAX_ROLE), usize::from(limits::ROLE)),
        ("HC_MAX_PARTS", MAX_ATOMS, limits::ATOMS),
        ("HC_MAX_COUNT", 64, usize::from(limits::COUNT)),
        ("HC_MAX_THINGS", MAX_ELEMENTS, usize::from(limits::ELEMENTS)),
        ("HC_MAX_CARDS", 8, limits::BATCH),
        ("HC_MAX_SHARE", 1_000_000, limits::SHARE as usize),
        ("HC_MAX_TEXT", MAX_TEXT, limits::TEXT),
        ("HC_MAX_DEPTH", MAX_DEPTH, limits::DEPTH),
        ("HC_PARTS_ROOM", ATOM_ROOM, limits::ATOM_ROOM),
        ("HC_CHOSEN_ROOM", ATOM_ROOM, limits::ATOM_ROOM),
        ("HC_ROW_BYTES", ROW_BYTES, limits::ROW_BYTES),
        ("HC_TABLE_ROOM(entries)", 7 * ROW_BYTES, 7 * limits::ROW_BYTES),
        ("HC_LINES_ROOM(entries)", line_room(7), limits::line_room(7)),
        ("HC_CATALOGUE_ENTRIES", CATALOGUE_ROOMS[0], limits::CATALOGUE_CONCEPTS),
        ("HC_CATALOGUE_INCLUSIONS", CATALOGUE_ROOMS[1], limits::CATALOGUE_INCLUSIONS),
        ("HC_STACK", most_stack(), limits::STACK),
    ];
    let due: BTreeMap<String, u64> = due
        .into_iter()
        .map(|(name, number, of_crate)| {
            assert_eq!(number, of_crate, "{} in the safe crate", name);
            (name.to_string(), number as u64)
        })
        .collect();
    assert_eq!(constants(), due);
}

/// The largest number in the header's list of stack sizes.
fn most_stack() -> usize {
    let list = HEADER.split_once("in bytes at most:").expect("a list of stack sizes").1;
    let lines = list.lines().skip(1).take_while(|line| line.starts_with(" *     hc_"));
    let numbers: Vec<usize> = lines
        .map(|line| line.split_whitespace().nth(2).expect("a number").parse().expect("a number"))
        .collect();
    assert_eq!(numbers.len(), 18);
    numbers.into_iter().max().expect("a number")
}

/// From done to 22 without a gap, as many as the safe crate has reasons.
#[test]
fn the_enumeration_has_every_refusal() {
    let block = HEADER.split_once("enum hc_refusal {").expect("the enumeration").1;
    let lines =
        block.split_once("};").expect("its end").0.lines().filter(|line| line.contains(" = "));
    let number = |line: &str| -> u16 {
        let behind = line.split_once(" = ").expect("a number").1;
        let digits: String = behind.chars().take_while(char::is_ascii_digit).collect();
        digits.parse().expect("a number")
    };
    let numbers: Vec<u16> = lines.map(number).collect();
    let reasons = Reason::ALL.iter().map(|reason| reason.number());
    assert_eq!(numbers, [0].into_iter().chain(reasons).collect::<Vec<u16>>());
}
