//! What a reader must believe: the definitions that the contracts of the public operations and the sentences of the scope reach.
//!
//! A contract cites definitions of `specs/`, and these cite others. This module reads the sources as text, follows the names, and so
//! tells the definitions that are reached from those that only private contracts use, and counts their lines.

use std::collections::{BTreeMap, BTreeSet};
use std::ffi::OsStr;
use std::fs;
use std::path::{Path, PathBuf};

/// A definition by its crate, its module below `specs/` (as `Tables` or `Inner.Closure`) and its name.
#[derive(Clone, Debug, PartialEq, Eq, PartialOrd, Ord)]
pub struct Name {
    pub of: String,
    pub module: String,
    pub name: String,
}

impl Name {
    /// Definitions of private contracts stand in the module `Inner`.
    pub fn is_private(&self) -> bool {
        self.module.starts_with("Inner.")
    }
}

/// A law of `proofs/` that the scope asks for beside the operations.
pub struct Sentence {
    pub of: &'static str,
    pub file: &'static str,
    pub law: &'static str,
}

pub const SENTENCES: &[Sentence] = &[
    Sentence { of: "subsumption", file: "VariableLaws", law: "set-exactly" },
    Sentence { of: "subsumption", file: "MarkLaws", law: "marks-between" },
    Sentence { of: "subsumption", file: "RoleLaws", law: "wider-exactly" },
    Sentence { of: "matching", file: "DerivationLaws/Few", law: "lines-few" },
    Sentence { of: "matching", file: "TwinLaws", law: "twins-count-once" },
    Sentence { of: "cards", file: "SampleCards", law: "every-card" },
    Sentence { of: "cards", file: "FoundCards", law: "found" },
    Sentence { of: "cards", file: "FoundCards", law: "found_within" },
    Sentence { of: "cards", file: "FoundCards", law: "found-counted" },
    Sentence { of: "cards", file: "FoundCards", law: "found-group" },
    Sentence { of: "cards", file: "FoundBatches", law: "every-batch" },
    Sentence { of: "cards", file: "ShownTables", law: "every-table" },
    Sentence { of: "cards", file: "ShownTables", law: "empty-table" },
    Sentence { of: "cards", file: "ShownTables", law: "every-update" },
    Sentence { of: "cards", file: "ShownPairs", law: "nothing-shown" },
    Sentence { of: "cards", file: "JudgedCards", law: "examples" },
    Sentence { of: "cards", file: "JudgedCards", law: "in_order" },
    Sentence { of: "cards", file: "JudgedCards", law: "derived" },
    Sentence { of: "countermodel", file: "RisingLaws", law: "shown-rising" },
    Sentence { of: "countermodel", file: "ShownChecks", law: "shown-answers" },
    Sentence { of: "incremental", file: "FreshLaws", law: "update-fresh" },
    Sentence { of: "renumbering", file: "AcceptedLaws", law: "renumbered-accepted" },
    Sentence { of: "renumbering", file: "RenumberingLaws", law: "renumbered-back" },
    Sentence { of: "renumbering", file: "RenumberingLaws", law: "renumbered-twice" },
    Sentence { of: "renumbering", file: "BelowLaws", law: "renumbered-below" },
    Sentence { of: "renumbering", file: "BelowLaws", law: "renumbered-marks" },
    Sentence { of: "renumbering", file: "FillingLaws", law: "renumbered-fills" },
    Sentence { of: "owl", file: "GrammarLaws", law: "texts-exactly" },
    Sentence { of: "owl", file: "MeaningLaws", law: "texts-mean" },
    Sentence { of: "owl", file: "AcceptedLaws", law: "catalogue-accepted" },
    Sentence { of: "allowance", file: "CountLaws", law: "count-unique" },
    Sentence { of: "allowance", file: "CountLaws", law: "count-exists" },
    Sentence { of: "allowance", file: "AllowanceLaws", law: "larger-allowance" },
    Sentence { of: "allowance", file: "AllowanceLaws", law: "spent-exactly" },
    Sentence { of: "cards", file: "SampleCount", law: "sample-count" },
    Sentence { of: "cards", file: "SampleCount", law: "sample-spent" },
    Sentence { of: "groups", file: "TogetherLaws", law: "together-first" },
    Sentence { of: "groups", file: "TogetherLaws", law: "none-exactly" },
    Sentence { of: "groups", file: "TogetherLaws", law: "filled-together" },
    Sentence { of: "batches", file: "SentenceLaws", law: "sum_kept" },
    Sentence { of: "batches", file: "SentenceLaws", law: "refused-uses-nothing" },
    Sentence { of: "batches", file: "SentenceLaws", law: "outside_kept" },
    Sentence { of: "batches", file: "SentenceLaws", law: "alone" },
    Sentence { of: "edits", file: "InclusionLaws", law: "ids-can-be-kept" },
    Sentence { of: "edits", file: "InclusionLaws", law: "yes-stays" },
    Sentence { of: "edits", file: "InclusionLaws", law: "decided-yes-stays" },
    Sentence { of: "edits", file: "InclusionLaws", law: "filled-stays" },
    Sentence { of: "edits", file: "InclusionLaws", law: "found-stays" },
    Sentence { of: "edits", file: "InclusionLaws", law: "counted-stays" },
    Sentence { of: "edits", file: "QuestionLaws", law: "first-moves-later" },
    Sentence { of: "edits", file: "QuestionLaws", law: "within-moves-later" },
    Sentence { of: "edits", file: "QuestionLaws", law: "found-moves-later" },
    Sentence { of: "edits", file: "QuestionLaws", law: "counted-moves-later" },
    Sentence { of: "hermitcasket", file: "Texts", law: "texts" },
    Sentence { of: "hermitcasket", file: "ShownLaws", law: "parts-answer" },
];

/// The functions of a program that stand for it, since a program passes nothing on.
const PROGRAM: &[(&str, &str, &str)] =
    &[("hermitcasket", "answer", "answer"), ("hermitcasket", "parts", "put_part"), ("hermitcasket_owl", "answer", "answer")];

/// 01's eight operations: check, list the atoms, table, decide, find, chosen, derive, check a derivation.
const EIGHT: [&str; 8] = [
    "hc_check",
    "hc_atoms",
    "hc_subsumption_table",
    "hc_subsumed",
    "hc_match",
    "hc_chosen",
    "hc_derive",
    "hc_check_derivation",
];

/// The row of SENTENCES.
const LAWS: &str =
    "the laws beside them, in further lines: small edits, renumbering, sample cards and others";

pub type Imports = BTreeMap<String, Name>;

/// The line `module _ .. where` over definitions, which binds names for them, and its place in the file.
#[derive(Clone)]
pub struct Section {
    at: usize,
    line: String,
}

/// A definition of a file, with the names that it defines.
pub struct Item {
    pub names: Vec<String>,
    pub section: Option<Section>,
    /// Its lines, without comments.
    pub text: String,
}

impl Item {
    /// What it cites, by the names that are known in its file.
    fn cites(&self, known: &Imports) -> BTreeSet<Name> {
        let bound = self.section.as_ref().map_or("", |section| &section.line);
        resolve(&format!("{}\n{}", bound, self.text), known)
    }
}

pub fn crates_dir() -> PathBuf {
    Path::new(env!("CARGO_MANIFEST_DIR")).join("../crates")
}

pub fn read(path: &Path) -> String {
    fs::read_to_string(path).unwrap_or_else(|error| panic!("{}: {}", path.display(), error))
}

/// The files below a folder with an extension, with their paths from there.
pub fn files(folder: &Path, extension: &str) -> Vec<PathBuf> {
    let mut found = Vec::new();
    let mut open = vec![folder.to_path_buf()];
    while let Some(at) = open.pop() {
        // a folder that is not there has no files
        for entry in fs::read_dir(&at).into_iter().flatten() {
            let path = entry.expect("an entry of a folder").path();
            if path.is_dir() {
                open.push(path);
            } else if path.extension() == Some(OsStr::new(extension)) {
                found.push(path);
            }
        }
    }
    found.sort();
    found
}

fn is_part(c: char) -> bool {
    c.is_alphanumeric() || "_-'".contains(c)
}

/// The words of a text that may be names. Comments are left out.
fn words(text: &str) -> BTreeSet<String> {
    let mut found = BTreeSet::new();
    for line in text.lines() {
        let code = line.split("--").next().unwrap_or("");
        for word in code.split(|c: char| !is_part(c)) {
            if !word.is_empty() {
                found.insert(word.to_string());
            }
        }
    }
    found
}

/// Rattle's own library, by whose side those of this repository stand below `Rattle`.
const LIBRARY: &str = "std";

/// Crate and module of a path such as `Rattle.subsumption.specs.Tables`; nothing for other libraries and for declared types, which
/// are those of the code.
fn spec_module(path: &str) -> Option<(String, String)> {
    let (of, rest) = path.strip_prefix("Rattle.")?.split_once(".specs.")?;
    if rest.starts_with("declared.") || of.contains('.') || of == LIBRARY {
        return None;
    }
    Some((of.to_string(), rest.to_string()))
}

/// The names that the `use` lines of a file bring from `specs/`.
pub fn imports(text: &str) -> Imports {
    let mut found = Imports::new();
    for line in text.lines() {
        let line = line.trim_start_matches("ghost ").trim_end_matches(';');
        let (path, names) = match line.strip_prefix("use ").and_then(|rest| rest.split_once(".{")) {
            Some(parts) => parts,
            None => continue,
        };
        let (of, module) = match spec_module(path) {
            Some(found) => found,
            None => continue,
        };
        for part in names.trim_end_matches('}').split(", ") {
            let (name, local) = part.split_once(" as ").unwrap_or((part, part));
            let to = Name { of: of.clone(), module: module.clone(), name: name.to_string() };
            found.insert(local.to_string(), to);
        }
    }
    found
}

const HEADS: &[&str] =
    &["abbrev pub ", "pattern abbrev pub ", "unfoldable pub ", "pub data ", "pub record "];

fn head(line: &str) -> Option<&str> {
    let line = line.trim_start();
    let rest = HEADS.iter().find_map(|start| line.strip_prefix(start))?;
    rest.split(|c: char| !is_part(c)).next()
}

/// The constructors on a line of a `data` definition, or the name of what is derived for the type.
fn constructors(line: &str) -> Vec<String> {
    if let Some((_, name)) = line.split_once(" as ") {
        if line.trim_start().starts_with("deriving ") {
            return vec![name.trim().to_string()];
        }
    }
    let names = line.split_once(" : ").map_or("", |(names, _)| names);
    names.split_whitespace().map(str::to_string).collect()
}

/// The definitions of a file of `specs/`, each with its section.
pub fn items(text: &str) -> Vec<Item> {
    let mut found: Vec<Item> = Vec::new();
    let mut section = None;
    let mut in_data = false;
    for (at, line) in text.lines().enumerate() {
        if line.starts_with("module _") {
            assert!(line.ends_with(" where"), "more than a line: {}", line);
            section = Some(Section { at, line: line.to_string() });
            continue;
        }
        if !line.is_empty() && !line.starts_with(' ') {
            section = None;
        }
        if line.starts_with("use ") || line.trim_start().starts_with("--") {
            continue;
        }
        if let Some(name) = head(line) {
            in_data = line.trim_start().starts_with("pub data ");
            let (names, section) = (vec![name.to_string()], section.clone());
            found.push(Item { names, section, text: String::new() });
        } else if in_data {
            if let Some(item) = found.last_mut() {
                item.names.extend(constructors(line));
            }
        }
        if let Some(item) = found.last_mut() {
            item.text += line;
            item.text += "\n";
        }
    }
    found
}

/// What a clause says, without its name: `{ P }` of `ensures name { P }`.
pub fn said(clause: &str) -> &str {
    clause.find('{').map_or("", |at| &clause[at..])
}

/// The clauses of the functions of a file of `src/`, each on one line: all from its `requires` or `ensures` to the bracket that closes it.
pub fn clauses(text: &str) -> BTreeMap<String, String> {
    let mut found = BTreeMap::new();
    let mut name = None;
    let mut clause = String::new();
    let mut goes_on = false;
    let mut open = 0;
    let is_start =
        |line: &str| ["    requires", "    ensures"].iter().any(|word| line.starts_with(word));
    for line in text.lines() {
        let start = line.strip_prefix("pub fn ").or_else(|| line.strip_prefix("pub extern \"C\" fn "));
        if let Some(rest) = start {
            let end = rest.find(|c: char| !is_part(c)).unwrap_or(rest.len());
            name = Some(rest[..end].to_string());
            clause.clear();
        }
        if line == "}" {
            // of a function without clauses
            name = None;
        }
        if line == "{" {
            assert!(!goes_on, "a clause without an end: {}", clause);
            if let Some(name) = name.take() {
                found.insert(name, clause.clone());
            }
        }
        if name.is_some() && (goes_on || is_start(line)) {
            open += line.matches('{').count();
            open -= line.matches('}').count();
            goes_on = open > 0;
            clause += line.trim();
            clause += if goes_on { " " } else { "\n" };
        }
    }
    found
}

/// The public operations of a crate: the module of `src/` and the name of each. An empty name stands for all of the module.
fn operations(of: &str) -> Vec<(String, String)> {
    let src = crates_dir().join(of).join("src");
    let mut found: Vec<(String, String)> = PROGRAM
        .iter()
        .filter(|(program, _, _)| *program == of)
        .map(|(_, module, name)| (module.to_string(), name.to_string()))
        .collect();
    // a program has none
    let lib = fs::read_to_string(src.join("lib.rt")).unwrap_or_default();
    if lib.contains("pub extern \"C\" fn") {
        found.push(("lib".to_string(), String::new()));
    }
    for line in lib.lines() {
        if let Some(module) = line.strip_prefix("pub mod ") {
            let module = module.trim_end_matches(';');
            if module != "helpers" {
                found.push((module.to_string(), String::new()));
            }
        } else if let Some(path) = line.strip_prefix("pub use ") {
            let path = path.trim_end_matches(';');
            let (module, names) = path.rsplit_once("::").expect("a path");
            // one name, or several in brackets
            let names = names.trim_start_matches('{').trim_end_matches('}').split(", ");
            found.extend(names.map(|name| (module.replace("::", "/"), name.to_string())));
        }
    }
    found
}

pub fn resolve(text: &str, imports: &Imports) -> BTreeSet<Name> {
    words(text).iter().filter_map(|word| imports.get(word)).cloned().collect()
}

/// What the contracts of the functions of a file of `src/` cite, by function.
fn cited_in(of: &str, module: &str) -> BTreeMap<String, BTreeSet<Name>> {
    let text = read(&crates_dir().join(of).join("src").join(format!("{}.rt", module)));
    let brought = imports(&text);
    let cited = |(function, clauses): (String, String)| {
        let clauses: Vec<&str> = clauses.lines().map(said).collect();
        (function, resolve(&clauses.join("\n"), &brought))
    };
    clauses(&text).into_iter().map(cited).collect()
}

/// What the contracts of the public operations cite.
fn cited_by_operations() -> BTreeSet<Name> {
    let mut found = BTreeSet::new();
    for of in crate_names() {
        for (module, name) in operations(&of) {
            let cited = cited_in(&of, &module).into_iter();
            let asked = cited.filter(|(function, _)| name.is_empty() || *function == name);
            found.extend(asked.flat_map(|(_, names)| names));
        }
    }
    found
}

/// What the contracts of both programs cite.
fn cited_by_programs() -> BTreeSet<Name> {
    let cited = |(of, module, function): &(&str, &str, &str)| {
        cited_in(of, module).remove(*function).expect("a program's function")
    };
    PROGRAM.iter().flat_map(cited).collect()
}

/// What a sentence cites: the law's signature runs to the line that starts its proof, or to what that unfolds.
fn cited_by(sentence: &Sentence) -> BTreeSet<Name> {
    let path = crates_dir().join(sentence.of).join(format!("proofs/{}.antt", sentence.file));
    let text = read(&path);
    // a law may stand in a module, indented
    let start = format!("pub {} :", sentence.law);
    let ends = [format!("{} ", sentence.law), "unfolding ".to_string()];
    let signature: Vec<&str> = text
        .lines()
        .map(str::trim_start)
        .skip_while(|line| !line.starts_with(&start))
        .take_while(|line| !ends.iter().any(|end| line.starts_with(end)))
        .collect();
    assert!(!signature.is_empty(), "no law {} in {}", sentence.law, path.display());
    resolve(&signature.join("\n"), &imports(&text))
}

fn cited_by_sentences() -> BTreeSet<Name> {
    SENTENCES.iter().flat_map(cited_by).collect()
}

/// All crates: one may have operations and no definitions, as `capi`, or definitions and no code, as `cards`.
pub fn crate_names() -> Vec<String> {
    let mut found: Vec<String> = fs::read_dir(crates_dir())
        .expect("the folder crates")
        .map(|entry| entry.expect("a crate").file_name().into_string().expect("a crate's name"))
        .collect();
    found.sort();
    found
}

struct Definition {
    cites: BTreeSet<Name>,
    /// How many lines it has, without empty ones.
    lines: usize,
    /// The place of its section in its file.
    section: Option<usize>,
}

/// The definitions of all `specs/`, each with those that it cites. Constructors stand for their type.
#[derive(Default)]
pub struct Definitions {
    by_name: BTreeMap<Name, Definition>,
    type_of: BTreeMap<Name, Name>,
}

impl Definitions {
    pub fn of_all_crates() -> Definitions {
        let mut all = Definitions::default();
        for of in crate_names() {
            let folder = crates_dir().join(&of).join("specs");
            for path in files(&folder, "antt") {
                let module = path.strip_prefix(&folder).expect("below specs").with_extension("");
                let module = module.to_string_lossy().replace('/', ".");
                all.add(&of, &module, &read(&path));
            }
        }
        all
    }

    /// Adds those of a file.
    pub fn add(&mut self, of: &str, module: &str, text: &str) {
        let items = items(text);
        let mut known = imports(text);
        for item in &items {
            let first = Name { of: of.into(), module: module.into(), name: item.names[0].clone() };
            for name in &item.names {
                let here = Name { name: name.clone(), ..first.clone() };
                self.type_of.insert(here.clone(), first.clone());
                known.insert(name.clone(), here);
            }
        }
        for item in &items {
            let name = Name { of: of.into(), module: module.into(), name: item.names[0].clone() };
            let lines = item.text.lines().filter(|line| !line.trim().is_empty()).count();
            let section = item.section.as_ref().map(|section| section.at);
            self.by_name.insert(name, Definition { cites: item.cites(&known), lines, section });
        }
    }

    pub fn all(&self) -> BTreeSet<Name> {
        self.by_name.keys().cloned().collect()
    }

    /// The definitions that the public contracts and the sentences reach.
    pub fn reached(&self) -> BTreeSet<Name> {
        self.reached_from(cited_by_operations().into_iter().chain(cited_by_sentences()))
    }

    /// The definitions that one sentence reaches.
    pub fn reached_by(&self, sentence: &Sentence) -> BTreeSet<Name> {
        self.reached_from(cited_by(sentence))
    }

    /// The definitions that these names are of, and all that they cite, further and further.
    pub fn reached_from(&self, names: impl IntoIterator<Item = Name>) -> BTreeSet<Name> {
        let mut open: Vec<Name> = names.into_iter().collect();
        let mut found = BTreeSet::new();
        while let Some(name) = open.pop() {
            let name = self.type_of.get(&name).unwrap_or_else(|| panic!("no definition {:?}", name)).clone();
            if found.insert(name.clone()) {
                open.extend(self.by_name[&name].cites.iter().cloned());
            }
        }
        found
    }

    /// The lines of definitions: without imports, comments and empty lines. A section's line counts once, with those that stand in it.
    pub fn lines(&self, names: &BTreeSet<Name>) -> usize {
        let own: usize = names.iter().map(|name| self.by_name[name].lines).sum();
        let section = |name: &Name| {
            let at = self.by_name[name].section?;
            Some((name.of.clone(), name.module.clone(), at))
        };
        own + names.iter().filter_map(section).collect::<BTreeSet<_>>().len()
    }

    /// What one may want to believe, and how many lines of definitions that reaches. Declared types of the code are not counted.
    pub fn table(&self) -> Vec<(String, usize)> {
        let lines = |names: &BTreeSet<Name>| self.lines(&self.reached_from(names.iter().cloned()));
        let none = Name { of: "matching".into(), module: "Find".into(), name: "NoneSolves".into() };
        let none = lines(&BTreeSet::from([none]));
        let exports = cited_in("capi", "lib");
        let eight = EIGHT.iter().flat_map(|name| exports[*name].clone()).collect();
        let eight_names = format!("`{}`", EIGHT.join("`, `"));
        let every: BTreeSet<Name> = exports.values().flatten().cloned().collect();
        let promised: BTreeSet<Name> = every.iter().cloned().chain(cited_by_programs()).collect();
        let said = promised.iter().cloned().chain(cited_by_sentences()).collect();
        let all = self.lines(&self.reached());
        let rows = [
            ("a \"none\": no replacement of any size (`NoneSolves`)", none),
            ("all that `hc_match` promises", lines(&exports["hc_match"])),
            (eight_names.as_str(), lines(&eight)),
            ("every function for C and Rust", lines(&every)),
            ("these and both programs", lines(&promised)),
            (LAWS, lines(&said) - lines(&promised)),
            ("everything, also the operations as Rattle code calls them", all),
        ];
        rows.iter().map(|(what, lines)| (what.to_string(), *lines)).collect()
    }
}
