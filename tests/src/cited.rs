//! What the documents cite of crates/: names of laws, definitions and functions with a file, and paths.
//!
//! A file of crates/ is named by its path from there, in backticks or as a link: `subsumption/specs/Check.antt`. A name in backticks is
//! cited with a file where it stands
//! - in a list directly before it, with nothing between but commas, semicolons, brackets and the words "and", "in" and "of":
//!   "`a`, `b` in `F`", "`a` and `b` (`F`)", "(`a`; `F`)";
//! - in brackets by itself, earlier in the same paragraph or cell, and "both" or "all" stands before the file:
//!   "that one holds (`a`), and the other (`b`, both in `F`)". In brackets by itself means up to a bracket or a colon;
//! - in brackets by itself behind "(`F`):": "Laws (`F`): that one holds (`a`); the other (`b`)".
//!
//! Other names in backticks are named without a file.

use std::collections::BTreeSet;
use std::fs;
use std::path::{Path, PathBuf};

/// A document's name from the top folder, and its text.
pub struct Document {
    pub name: String,
    pub text: String,
}

#[derive(Clone, Debug, PartialEq, Eq, PartialOrd, Ord)]
pub struct Citation {
    pub name: String,
    /// Its path from crates/.
    pub file: String,
}

/// Files that every crate, or many a function's proof, has go by their name alone.
const OF_EVERY_CRATE: [&str; 5] =
    ["lib.rt", "Lib.antt", "Inner.antt", "Invariants.antt", "Answers.antt"];

pub fn root() -> PathBuf {
    Path::new(env!("CARGO_MANIFEST_DIR")).join("..")
}

/// README.md, and the documents of docs/ and docs/requests/.
pub fn documents() -> Vec<Document> {
    let mut names = vec!["README.md".to_string()];
    for folder in ["docs", "docs/requests"] {
        for entry in fs::read_dir(root().join(folder)).expect("a folder of documents") {
            let name = entry.expect("a document").file_name().into_string().expect("a plain name");
            if name.ends_with(".md") {
                names.push(format!("{}/{}", folder, name));
            }
        }
    }
    names.sort();
    let read = |name: String| {
        let text = fs::read_to_string(root().join(&name))
            .unwrap_or_else(|error| panic!("{}: {}", name, error));
        Document { name, text }
    };
    names.into_iter().map(read).collect()
}

/// The paragraphs, items of lists and cells of tables.
pub fn pieces(text: &str) -> Vec<String> {
    let mut found: Vec<String> = Vec::new();
    let mut goes_on = false;
    for line in text.lines() {
        if line.starts_with('|') {
            found.extend(line.split(" | ").map(str::to_string));
            goes_on = false;
            continue;
        }
        let words = line.trim_start();
        if words.is_empty() {
            goes_on = false;
            continue;
        }
        let number = words.trim_start_matches(|c: char| c.is_ascii_digit());
        let is_item =
            words.starts_with("- ") || number.len() < words.len() && number.starts_with(". ");
        match found.last_mut() {
            Some(last) if goes_on && !is_item => *last += &format!(" {}", words),
            _ => found.push(words.to_string()),
        }
        goes_on = true;
    }
    found
}

/// Links to files of crates/, as words in backticks.
fn without_links(piece: &str) -> String {
    let mut text = String::new();
    let mut rest = piece;
    while let Some((before, link)) = rest.split_once("[crates/") {
        let (path, behind) = link.split_once("](").expect("a link");
        text += &format!("{}`crates/{}`", before, path);
        rest = behind.split_once(')').expect("a link's end").1;
    }
    text + rest
}

/// The words in backticks, each with the text before it and the text behind.
fn quoted(piece: &str) -> Vec<(String, String, String)> {
    let piece = without_links(piece);
    let parts: Vec<&str> = piece.split('`').collect();
    let quoted =
        |k: usize| (parts[k].to_string(), parts[k - 1].to_string(), parts[k + 1].to_string());
    (1..parts.len().saturating_sub(1)).step_by(2).map(quoted).collect()
}

fn is_part(c: char) -> bool {
    c.is_alphanumeric() || "_-'".contains(c)
}

fn is_name(word: &str) -> bool {
    word.starts_with(char::is_alphabetic) && word.chars().all(is_part)
}

/// The path from crates/ of a word that names a file of code, definitions or proofs.
fn file(word: &str) -> Option<&str> {
    let is_file = word.ends_with(".antt") || word.ends_with(".rt");
    let is_plain =
        !word.contains(|c: char| c == ' ' || c == '*') && !OF_EVERY_CRATE.contains(&word);
    (is_file && is_plain).then(|| word.strip_prefix("crates/").unwrap_or(word))
}

/// What stands between two words in backticks, without punctuation.
fn joint(between: &str) -> String {
    let words = between.split(|c: char| c.is_whitespace() || ",;()".contains(c));
    words.filter(|word| !word.is_empty()).collect::<Vec<&str>>().join(" ")
}

/// The names that one paragraph, item or cell cites with files.
pub fn citations(piece: &str) -> Vec<Citation> {
    let mut found = Vec::new();
    // the list that goes on, and whether it began with a bracket; the names in brackets by themselves; the file of "(`F`):"
    let (mut list, mut in_brackets): (Vec<String>, bool) = (Vec::new(), false);
    let mut alone: Vec<String> = Vec::new();
    let mut leading: Option<String> = None;
    for (word, before, behind) in quoted(piece) {
        let joint = joint(&before);
        let (is_for_all, is_joined) = match joint.as_str() {
            "" | "and" | "in" | "of" => (false, true),
            "both" | "both in" | "all" | "all in" => (true, true),
            _ => (false, false),
        };
        if !is_joined {
            list.clear();
        }
        let mut cite = |names: &mut Vec<String>, file: &str| {
            found.extend(names.drain(..).map(|name| Citation { name, file: file.to_string() }));
        };
        if let Some(file) = file(&word) {
            cite(&mut list, file);
            if is_for_all {
                cite(&mut alone, file);
            }
            alone.clear();
            let leads = before.ends_with('(') && behind.starts_with("):");
            leading = leads.then(|| file.to_string());
        } else if is_name(&word) {
            if list.is_empty() || before.ends_with('(') {
                list.clear();
                in_brackets = before.ends_with('(');
            }
            list.push(word);
            if in_brackets && (behind.starts_with(')') || behind.starts_with(':')) {
                match &leading {
                    Some(file) => cite(&mut list, file),
                    None => alone.append(&mut list),
                }
            }
        } else {
            list.clear();
        }
    }
    found
}

/// The paths that a document names in backticks: files of crates/ by their paths from there, must-fail edits by crate and label, and
/// whatever else begins with a crate or a folder of the repository. From the top folder.
pub fn paths(text: &str) -> Vec<String> {
    let named = |word: &str| -> Option<String> {
        if let Some(file) = file(word) {
            return Some(format!("crates/{}", file));
        }
        let (first, label) = word.split_once('/')?;
        let edit = format!("crates/{}/must-fail/{}.edit", first, label);
        if root().join(&edit).is_file() {
            return Some(edit);
        }
        // target/ and the crates' out/ come and go
        let is_made = first == "target" || word.contains("/out/") || word.ends_with("/out");
        let is_plain = first.starts_with(char::is_alphabetic) && !is_made;
        let is_path = is_plain && !word.contains(|c: char| c == ' ' || c == '*');
        let from = ["", "crates/"].iter().find(|from| root().join(from).join(first).is_dir())?;
        is_path.then(|| format!("{}{}", from, word))
    };
    let words = pieces(text).into_iter().flat_map(|piece| quoted(&piece));
    words.filter_map(|(word, _, _)| named(&word)).collect()
}

/// The names that a file defines: functions, types and constants of code; laws, definitions, constructors and fields of the others.
pub fn definitions(file: &str, text: &str) -> BTreeSet<String> {
    let names = if file.ends_with(".rt") { names_of_code } else { names_of_antt };
    text.lines().flat_map(|line| names(line.trim_start())).collect()
}

fn names_of_code(line: &str) -> Vec<String> {
    let words: Vec<&str> = line.split_whitespace().collect();
    let is_head = |word: &str| ["fn", "struct", "enum", "const"].contains(&word);
    let at = match words.iter().position(|word| is_head(word)) {
        Some(at) if !line.starts_with("//") => at,
        _ => return Vec::new(),
    };
    let name =
        |word: &&str| word.split(|c: char| !is_part(c)).next().unwrap_or_default().to_string();
    words.get(at + 1).map(name).into_iter().collect()
}

fn names_of_antt(line: &str) -> Vec<String> {
    let mut line = line;
    while let Some(rest) =
        ["abbrev ", "unfoldable ", "pub "].iter().find_map(|word| line.strip_prefix(word))
    {
        line = rest;
    }
    if let Some(rest) = line.strip_prefix("data ").or_else(|| line.strip_prefix("record ")) {
        let name = rest.split(|c: char| !is_part(c)).next().unwrap_or_default();
        return vec![name.to_string()];
    }
    // `name :`, or several constructors of one type
    let names: Vec<String> = match line.split_once(" :") {
        Some((names, _)) => names.split(' ').map(str::to_string).collect(),
        None => return Vec::new(),
    };
    if names.iter().all(|name| is_name(name)) {
        names
    } else {
        Vec::new()
    }
}
