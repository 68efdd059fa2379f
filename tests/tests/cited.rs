//! What README.md and docs/ say where a law, a definition or a function stands is so, and the paths that they name are there.

use std::collections::BTreeMap;
use std::fs;

use hermitcasket_tests::cited::{citations, definitions, documents, paths, pieces, root, Citation};

fn cited(piece: &str) -> Vec<(String, String)> {
    citations(piece).into_iter().map(|Citation { name, file }| (name, file)).collect()
}

/// Which names a file is cited for, and which not.
#[test]
fn the_rule() {
    for (piece, due) in [
        ("`a`, `b-c` in `x/specs/F.antt`", "a b-c"),
        ("`a` and `b` (`x/specs/F.antt`)", "a b"),
        ("it holds (`a`; `x/specs/F.antt`)", "a"),
        ("`a` of `crates/x/specs/F.antt`", "a"),
        ("`a` in [crates/x/specs/F.antt](../crates/x/specs/F.antt), and `b`", "a"),
        ("`a` says so, law `b` (`x/specs/F.antt`)", "b"),
        ("`x::a`, `b` (`x/specs/F.antt`)", "b"),
        ("one (`a`: so), two (`b`, `c`) and three (`d`, all in `x/specs/F.antt`)", "d a b c"),
        ("one (`a`), `b` and two (`c`, both in `x/specs/F.antt`)", "c a"),
        ("one (`a`) and two (`b`, `x/specs/F.antt`)", "b"),
        ("Laws (`x/specs/F.antt`): `a` holds (`b`), and so does this (`c`)", "b c"),
        ("`a` in `F`, `b` in `crates/*/specs/F.antt`, `c` in `Lib.antt`", ""),
    ] {
        let due: Vec<(String, String)> = due
            .split_whitespace()
            .map(|name| (name.to_string(), "x/specs/F.antt".to_string()))
            .collect();
        assert_eq!(cited(piece), due, "{}", piece);
    }
    let table = "first\nline `a`\n\n- item `b`\n  (`x/F.rt`)\n1. other\n| `c` | `d` (`x/F.rt`) |\n";
    let due = ["first line `a`", "- item `b` (`x/F.rt`)", "1. other", "| `c`", "`d` (`x/F.rt`) |"];
    assert_eq!(pieces(table), due);
}

#[test]
fn what_a_file_defines() {
    let antt = "use x.{a}\npub data Kind : Type 0 where\n  one two : Kind\nmodule _ (t : T) where\n  pub b-law :\n      (c : C) → D\n  \
                b-law c = rw d (e : E)\nabbrev pub f : A\npub record G (t : T) : Type 0 where\n  pub h : A\nunfoldable pub i : A\n";
    let found: Vec<String> = definitions("F.antt", antt).into_iter().collect();
    assert_eq!(found, ["G", "Kind", "b-law", "f", "h", "i", "one", "two"]);
    let code = "// fn no\npub fn a(b: u8) -> u8\nconst C: u8 = 1;\npub enum D {\n    E,\n}\n    fn f<T>() {}\n";
    let found: Vec<String> = definitions("f.rt", code).into_iter().collect();
    assert_eq!(found, ["C", "D", "a", "f"]);
}

#[test]
fn every_cited_name_is_defined_in_its_file() {
    let mut known = BTreeMap::new();
    let (mut count, mut faults) = (0, Vec::new());
    for document in documents() {
        for Citation { name, file } in
            pieces(&document.text).iter().flat_map(|piece| citations(piece))
        {
            let defined = known.entry(file.clone()).or_insert_with(|| {
                let path = root().join("crates").join(&file);
                // a file that is not there is told by the test of paths
                definitions(&file, &fs::read_to_string(path).unwrap_or_default())
            });
            count += 1;
            if !defined.contains(&name) {
                faults.push(format!("  {}: {} is not in {}", document.name, name, file));
            }
        }
    }
    assert!(faults.is_empty(), "cited and not defined there:\n{}", faults.join("\n"));
    assert!(count >= 440, "{} citations: the reader of documents is broken", count);
}

#[test]
fn every_named_path_is_there() {
    let (mut count, mut faults) = (0, Vec::new());
    for document in documents() {
        for path in paths(&document.text) {
            count += 1;
            if !root().join(&path).exists() {
                faults.push(format!("  {}: {}", document.name, path));
            }
        }
    }
    assert!(faults.is_empty(), "named and not there:\n{}", faults.join("\n"));
    assert!(count >= 320, "{} paths: the reader of documents is broken", count);
}

/// In THEORY.md every law, whose name has a hyphen, is cited with its file.
#[test]
fn the_argument_gives_every_law_its_file() {
    let text = fs::read_to_string(root().join("docs/THEORY.md")).expect("the argument");
    let (mut count, mut faults) = (0, Vec::new());
    for piece in pieces(&text) {
        let given: Vec<String> =
            citations(&piece).into_iter().map(|citation| citation.name).collect();
        let laws = piece.split('`').skip(1).step_by(2);
        for law in laws.filter(|word| word.contains('-') && !word.contains('/')) {
            count += 1;
            if !given.contains(&law.to_string()) {
                faults.push(format!("  {}", law));
            }
        }
    }
    assert!(faults.is_empty(), "laws without a file:\n{}", faults.join("\n"));
    assert!(count >= 20, "{} laws", count);
}

/// In CONTRACTS.md the tables of the scope's sentences and of the theory cite every name with its file.
#[test]
fn the_contracts_give_every_name_its_file() {
    let text = fs::read_to_string(root().join("docs/CONTRACTS.md")).expect("the contracts");
    let tables =
        text.split_once("\n## Where the sentences of the scope stand\n").expect("the tables").1;
    let mut count = 0;
    for row in tables.lines().filter(|line| line.starts_with("| ") && line.contains('`')) {
        let cell = row.split(" | ").nth(1).expect("a second cell");
        let names: Vec<&str> =
            cell.split('`').skip(1).step_by(2).filter(|word| !word.contains('/')).collect();
        let given: Vec<String> =
            citations(cell).into_iter().map(|citation| citation.name).collect();
        assert_eq!(names, given, "{}", row);
        count += 1;
    }
    assert!(count >= 40, "{} rows", count);
}
