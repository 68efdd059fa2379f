//! What docs/CONTRACTS.md says of the must-fail edits, held to the edits and to the code.
//!
//! The first table of its section has a row for each export, for each program and for the sentences of A.13. The cells: what the row is
//! of; the functions that carry its contract, as `answers::check`; definitions that this contract cites; then edits, as
//! `answers/check-accepts-all`: those of the functions, those of laws, each behind the name of its law, and those of other code. The second
//! table has 01's wrong programs, each with the edits that are it.

use std::collections::{BTreeMap, BTreeSet};
use std::ops::Range;
use std::path::Path;

use crate::believed::{
    clauses, crate_names, crates_dir, files, imports, items, read, resolve, said, Definitions,
    Name, Sentence, SENTENCES,
};
use crate::cited::root;

const SECTION: &str = "\n## Wrong programs that are refused\n";

/// A must-fail edit: one file of a crate, and pairs of an old and a new text.
pub struct Edit {
    of: String,
    file: String,
    pairs: Vec<(String, String)>,
}

impl Edit {
    fn read(of: &str, path: &Path) -> Edit {
        let mut edit = Edit { of: of.to_string(), file: String::new(), pairs: Vec::new() };
        let mut old = None;
        for line in read(path).lines() {
            if let Some(file) = line.strip_prefix("file: ") {
                assert!(edit.file.is_empty(), "{} is of two files", path.display());
                edit.file = file.to_string();
            } else if let Some(text) = line.strip_prefix("old: ") {
                old = Some(text.to_string());
            } else if let Some(new) = line.strip_prefix("new:") {
                let old = old.take().unwrap_or_else(|| panic!("{}: nothing old", path.display()));
                edit.pairs.push((old, new.strip_prefix(' ').unwrap_or(new).to_string()));
            }
        }
        assert!(!edit.pairs.is_empty(), "{} changes nothing", path.display());
        edit
    }

    /// The file's text after the edit. As for rt, each old text stands in it once.
    fn applied(&self, text: &str) -> Option<String> {
        let mut text = text.to_string();
        for (old, new) in &self.pairs {
            if text.matches(old.as_str()).count() != 1 {
                return None;
            }
            text = text.replacen(old, new, 1);
        }
        Some(text)
    }

    /// Whether it changes the body of a function and nothing else.
    fn is_within(&self, function: &Function) -> bool {
        let is_there = self.of == function.of && self.file == function.file;
        let edited = self.applied(&function.text).filter(|_| is_there).unwrap_or_default();
        let (before, after) =
            (&function.text[..function.body.start], &function.text[function.body.end..]);
        edited.strip_prefix(before).map_or(false, |rest| rest.ends_with(after))
    }

    /// The definition of specs/ that it changes.
    fn definition(&self) -> Option<Name> {
        let module = self.file.strip_prefix("specs/")?.strip_suffix(".antt")?;
        let text = read(&crates_dir().join(&self.of).join(&self.file));
        let changed = |text: &str| text.contains(&self.pairs[0].0);
        let item = items(&text).into_iter().find(|item| changed(&item.text))?;
        let (of, module) = (self.of.clone(), module.replace('/', "."));
        Some(Name { of, module, name: item.names[0].clone() })
    }
}

/// All must-fail edits, by crate and label.
pub fn edits() -> BTreeMap<String, Edit> {
    let mut found = BTreeMap::new();
    for of in crate_names() {
        for path in files(&crates_dir().join(&of).join("must-fail"), "edit") {
            let label = path.file_stem().expect("a label").to_string_lossy();
            found.insert(format!("{}/{}", of, label), Edit::read(&of, &path));
        }
    }
    found
}

/// C lends slice by slice what the crates lend as one struct: the words of an export, and those of the function that it calls.
const LENT_SINGLY: &[(&str, &str)] = &[
    ("settings_lent_singly permitted largest", "lent_settings settings"),
    ("lent_singly concepts inclusions questions roles variables", "lent tables"),
];

/// The lines in which an export makes those structs.
const MADE: &[&str] = &[
    "let tables = Tables {\n        concepts,\n        inclusions,\n        questions,\n        roles,\n        variables,\n    };",
    "let settings = Settings { permitted, largest };",
];

/// A public function, in the text of its file.
pub struct Function {
    of: String,
    file: String,
    text: String,
    body: Range<usize>,
    contract: String,
}

impl Function {
    pub fn new(of: &str, file: &str, text: &str, name: &str) -> Option<Function> {
        let heads = [format!("\npub fn {}(", name), format!("\npub extern \"C\" fn {}(", name)];
        let head = heads.iter().find_map(|head| text.find(head))?;
        let start = head + text[head..].find("\n{\n")? + 3;
        let end = start + text[start..].find("\n}\n")? + 1;
        let contract = clauses(text).get(name)?.clone();
        let (of, file, text) = (of.to_string(), file.to_string(), text.to_string());
        Some(Function { of, file, text, body: start..end, contract })
    }

    /// A function by its path, as `answers::check`.
    fn find(path: &str) -> Option<Function> {
        let (of, name) = path.split_once("::")?;
        let folder = crates_dir().join(of);
        files(&folder.join("src"), "rt").iter().find_map(|file| {
            let from_crate = file.strip_prefix(&folder).expect("below the crate").to_string_lossy();
            Function::new(of, &from_crate, &read(file), name)
        })
    }

    /// The clauses word by word.
    fn clauses(&self) -> Vec<Vec<String>> {
        let plain = |clause: &str| -> Vec<String> {
            let lent = |clause: String, (singly, as_one): &(&str, &str)| clause.replace(singly, as_one);
            let clause = LENT_SINGLY.iter().fold(clause.to_string(), lent);
            let clause = clause.replace('(', " ( ").replace(')', " ) ");
            clause.split_whitespace().map(str::to_string).collect()
        };
        self.contract.lines().map(plain).collect()
    }

    /// The definitions that its `ensures` cites.
    fn cites(&self) -> BTreeSet<Name> {
        let is_ensured = |line: &&str| line.trim_start().starts_with("ensures ");
        let ensured: Vec<&str> = self.contract.lines().filter(is_ensured).map(said).collect();
        let lent = |mut name: Name| {
            let first = |words: &str| words.split(' ').next().map(str::to_string);
            let singly = LENT_SINGLY.iter().find(|(singly, _)| first(singly).as_ref() == Some(&name.name));
            name.name = singly.and_then(|(_, as_one)| first(as_one)).unwrap_or(name.name);
            name
        };
        resolve(&ensured.join("\n"), &imports(&self.text)).into_iter().map(lent).collect()
    }

    /// Whether the contracts are the same, and their names mean the same.
    pub fn promises_as(&self, other: &Function) -> bool {
        let is_same = self.clauses() == other.clauses() && self.cites() == other.cites();
        is_same && !self.cites().is_empty()
    }

    /// The function whose answer it passes on, if that is all it does.
    pub fn passes_on(&self) -> Option<&str> {
        let mut body = self.text[self.body.clone()].trim();
        while let Some(rest) = MADE.iter().find_map(|made| body.strip_prefix(made)) {
            body = rest.trim_start();
        }
        let (path, arguments) = body.strip_suffix(')')?.split_once('(')?;
        let is_all = !arguments.contains(|c: char| !c.is_alphanumeric() && !"_, \n".contains(c));
        Some(path).filter(|_| is_all)
    }
}

/// A row of the first table.
pub struct Row {
    of: String,
    functions: Vec<String>,
    clauses: Vec<String>,
    of_functions: Vec<String>,
    /// Each with its law.
    of_laws: Vec<(String, String)>,
    of_code: Vec<String>,
}

impl Row {
    fn read(line: &str) -> Row {
        let cells = cells(line);
        assert_eq!(cells.len(), 6, "{}", line);
        let (mut of_laws, mut law) = (Vec::new(), String::new());
        for word in quoted(cells[4]) {
            if word.contains('/') {
                of_laws.push((law.clone(), word));
            } else {
                law = word;
            }
        }
        Row {
            of: cells[0].replace('`', ""),
            functions: quoted(cells[1]),
            clauses: quoted(cells[2]),
            of_functions: quoted(cells[3]),
            of_laws,
            of_code: quoted(cells[5]),
        }
    }

    fn edits(&self) -> impl Iterator<Item = &String> {
        let of_laws = self.of_laws.iter().map(|(_, edit)| edit);
        self.of_functions.iter().chain(of_laws).chain(&self.of_code)
    }

    fn is_of_export(&self) -> bool {
        self.of.starts_with("hc_")
    }
}

fn cells(line: &str) -> Vec<&str> {
    line.trim_matches('|').split('|').map(str::trim).collect()
}

fn quoted(cell: &str) -> Vec<String> {
    cell.split('`').skip(1).step_by(2).map(str::to_string).collect()
}

/// The rows of the section's tables, without their heads.
fn tables(document: &str) -> Vec<Vec<&str>> {
    let section = document.split_once(SECTION).expect("a section on edits").1;
    let section = section.split("\n## ").next().unwrap_or(section);
    let blocks = section.split("\n\n").map(|block| block.trim_start().lines());
    let tables = blocks.filter(|block| block.clone().all(|line| line.starts_with('|')));
    tables
        .map(|table| table.skip(2).collect())
        .filter(|rows: &Vec<&str>| !rows.is_empty())
        .collect()
}

pub fn rows(document: &str) -> Vec<Row> {
    tables(document).first().expect("a table").iter().map(|line| Row::read(line)).collect()
}

/// 01's wrong programs, in its words, and the edits that are each.
pub fn wrong_programs(document: &str) -> Vec<(String, Vec<String>)> {
    let tables = tables(document);
    let lines = tables.get(1).expect("a second table").iter().map(|line| cells(line));
    lines.map(|cells| (cells[0].to_string(), quoted(cells[1]))).collect()
}

/// Every edit stands in one row, once, and every edit that is named is there.
pub fn faults_of_names(rows: &[Row]) -> Vec<String> {
    let edits = edits();
    let mut faults = Vec::new();
    let named: Vec<(&String, &str)> =
        rows.iter().flat_map(|row| row.edits().map(move |name| (name, row.of.as_str()))).collect();
    for edit in edits.keys() {
        let of: Vec<&str> =
            named.iter().filter(|(name, _)| *name == edit).map(|(_, of)| *of).collect();
        match of[..] {
            [] => faults.push(format!("{} stands in no row", edit)),
            [_] => {}
            _ => faults.push(format!("{} stands in several places: {}", edit, of.join(", "))),
        }
    }
    let unknown = named.iter().filter(|(name, _)| !edits.contains_key(*name));
    faults.extend(unknown.map(|(name, of)| format!("{}: {} is no edit", of, name)));
    faults
}

/// The functions of the header, in its order.
pub fn exports() -> Vec<String> {
    let header = read(&root().join("include/hermitcasket.h"));
    let name = |line: &str| {
        let words = line.strip_prefix("hc_")?.split_once(" hc_")?.1;
        Some(format!("hc_{}", words.split_once('(')?.0))
    };
    header.lines().filter_map(name).collect()
}

/// The rows of exports are those of the header, in its order.
pub fn faults_of_exports(rows: &[Row]) -> Vec<String> {
    let exports = exports();
    let given: Vec<&String> =
        rows.iter().filter(|row| row.is_of_export()).map(|row| &row.of).collect();
    let missing = exports.iter().filter(|export| !given.contains(export));
    let mut faults: Vec<String> = missing.map(|export| format!("{} has no row", export)).collect();
    if faults.is_empty() && given != exports.iter().collect::<Vec<&String>>() {
        faults.push(format!("the rows are of {:?}, the header has {:?}", given, exports));
    }
    faults
}

/// An export passes on what the row's function answers, and their contracts are the same; the `ensures` cites the row's clauses.
pub fn faults_of_contracts(row: &Row) -> Vec<String> {
    let mut faults = Vec::new();
    let mut cited = BTreeSet::new();
    for path in &row.functions {
        match Function::find(path) {
            Some(function) => cited.extend(function.cites().into_iter().map(|name| name.name)),
            None => faults.push(format!("{}: there is no {}", row.of, path)),
        }
    }
    if row.is_of_export() {
        faults.extend(fault_of_export(row));
    }
    if row.clauses.is_empty() {
        faults.push(format!("{}: no clause", row.of));
    }
    if !row.functions.is_empty() {
        let foreign = row.clauses.iter().filter(|clause| !cited.contains(*clause));
        faults.extend(foreign.map(|clause| format!("{}: no ensures has {}", row.of, clause)));
    }
    faults
}

fn fault_of_export(row: &Row) -> Option<String> {
    let export = Function::find(&format!("capi::{}", row.of));
    let export = match export {
        Some(export) => export,
        None => return Some(format!("{}: capi does not export it", row.of)),
    };
    let passed = export.passes_on();
    if passed != row.functions.first().map(String::as_str) || row.functions.len() != 1 {
        return Some(format!("{}: it passes on {:?}, not {:?}", row.of, passed, row.functions));
    }
    let is_same = Function::find(passed?).map_or(false, |function| function.promises_as(&export));
    (!is_same).then(|| format!("{}: {} promises something else", row.of, row.functions[0]))
}

/// The edits of the functions change a body of theirs and nothing else, those of other code do not; of an export there are two at least.
pub fn faults_of_bodies(row: &Row) -> Vec<String> {
    let edits = edits();
    let functions: Vec<Function> =
        row.functions.iter().filter_map(|path| Function::find(path)).collect();
    let is_within = |name: &&String| match edits.get(*name) {
        Some(edit) => functions.iter().any(|function| edit.is_within(function)),
        None => false,
    };
    let outside = row.of_functions.iter().filter(|name| !is_within(name));
    let inside = row.of_code.iter().filter(is_within);
    let mut faults: Vec<String> = outside
        .map(|name| format!("{}: {} is not within {:?}", row.of, name, row.functions))
        .chain(inside.map(|name| format!("{}: {} is within {:?}", row.of, name, row.functions)))
        .collect();
    let count = row.of_functions.iter().filter(is_within).count();
    if row.is_of_export() && count < 2 {
        faults.push(format!("{}: {} edits of its function", row.of, count));
    }
    faults
}

/// The edits of laws change a definition that their law reaches. Where there is no function, these definitions are the row's clauses.
pub fn faults_of_laws(row: &Row, definitions: &Definitions) -> Vec<String> {
    let edits = edits();
    let mut faults = Vec::new();
    let mut changed = BTreeSet::new();
    for (law, name) in &row.of_laws {
        let definition = edits.get(name).and_then(Edit::definition);
        let is_reached = definition.as_ref().map_or(false, |definition| {
            let says = |sentence: &&Sentence| sentence.of == definition.of && sentence.law == law;
            let sentence = SENTENCES.iter().find(says);
            sentence.map_or(false, |law| definitions.reached_by(law).contains(definition))
        });
        if !is_reached {
            faults.push(format!("{}: {} changes nothing that {:?} says", row.of, name, law));
        }
        changed.extend(definition.map(|definition| definition.name));
    }
    if row.functions.is_empty() && changed != row.clauses.iter().cloned().collect() {
        faults.push(format!("{}: the edits change {:?}, not {:?}", row.of, changed, row.clauses));
    }
    faults
}
