//! docs/CONTRACTS.md has every must-fail edit at the export, program or sentence that it is a wrong one of, with the clause that refuses it.

use std::fs;

use hermitcasket_tests::believed::Definitions;
use hermitcasket_tests::cited::root;
use hermitcasket_tests::tried::{
    edits, exports, faults_of_bodies, faults_of_contracts, faults_of_exports, faults_of_laws,
    faults_of_names, rows, wrong_programs, Function, Row,
};

fn document() -> String {
    fs::read_to_string(root().join("docs/CONTRACTS.md")).expect("the contracts")
}

fn assert_none(faults: Vec<String>) {
    assert!(faults.is_empty(), "docs/CONTRACTS.md, wrong programs:\n  {}", faults.join("\n  "));
}

/// What the line edits= of tests/expected says.
fn least_edits() -> usize {
    let expected = fs::read_to_string(root().join("tests/expected")).expect("tests/expected");
    let number = expected.lines().find_map(|line| line.strip_prefix("edits="));
    number.and_then(|number| number.parse().ok()).expect("a number of edits")
}

#[test]
fn every_edit_stands_in_one_row() {
    assert_none(faults_of_names(&rows(&document())));
    let count = edits().len();
    assert!(count >= least_edits() && count >= 36, "{} edits", count);
}

#[test]
fn every_export_has_a_row() {
    assert_none(faults_of_exports(&rows(&document())));
    assert_eq!(exports().len(), 18, "{:?}", exports());
}

#[test]
fn rows_name_the_function_that_carries_the_contract() {
    assert_none(rows(&document()).iter().flat_map(faults_of_contracts).collect());
}

#[test]
fn every_export_has_two_edits_of_its_function() {
    assert_none(rows(&document()).iter().flat_map(faults_of_bodies).collect());
}

#[test]
fn edits_of_laws_change_what_the_law_says() {
    let definitions = Definitions::of_all_crates();
    let faults = |row: &Row| faults_of_laws(row, &definitions);
    assert_none(rows(&document()).iter().flat_map(faults).collect());
}

/// Nine of 01's list, and some that were burnt before.
#[test]
fn wrong_programs_of_the_scope_have_edits() {
    let (programs, edits) = (wrong_programs(&document()), edits());
    for (program, names) in &programs {
        assert!(!names.is_empty(), "no edit is {}", program);
        for name in names {
            assert!(edits.contains_key(name), "{}: {} is no edit", program, name);
        }
    }
    assert!(programs.len() > 9, "{} wrong programs", programs.len());
}

fn faults(document: &str) -> Vec<String> {
    let (rows, definitions) = (rows(document), Definitions::of_all_crates());
    let of_rows = rows.iter().flat_map(|row| {
        let faults = faults_of_contracts(row).into_iter().chain(faults_of_bodies(row));
        faults.chain(faults_of_laws(row, &definitions)).collect::<Vec<String>>()
    });
    faults_of_names(&rows).into_iter().chain(faults_of_exports(&rows)).chain(of_rows).collect()
}

/// The document with one thing wrong, and what is told of it.
#[test]
fn what_is_wrong_is_told() {
    let document = document();
    for (old, new, due) in [
        ("`answers/blanks-other-id`, ", "", "answers/blanks-other-id stands in no row"),
        ("`answers/blanks-other-id`, ", "", "hc_blanks: 1 edits of its function"),
        ("/blanks-other-id`", "/blanks-other`", "hc_blanks: answers/blanks-other is no edit"),
        ("/blanks-other-id`", "/check-accepts-all`", "several places: hc_check, hc_blanks"),
        ("| `hc_blanks` |", "| `hc_blank` |", "hc_blanks has no row"),
        ("| `answers::blanks` |", "| `answers::atoms` |", "hc_blanks: it passes on Some("),
        ("| `answers::blanks` |", "| `answers::blank` |", "hc_blanks: there is no answers::blank"),
        ("`pair_fault`, `variables", "`table_fault`, `variables", "no ensures has table_fault"),
        ("| `pair_fault`, `variables_of` |", "| |", "hc_blanks: no clause"),
        (
            "| | `owl/depth-33-accepted`",
            ", `owl/depth-33-accepted` | |",
            "depth-33-accepted is not",
        ),
        ("-exchanged` | |", "-exchanged` | | `answers/blanks-other-id`,", "several places"),
        ("`found_within`: ", "`found`: ", "cards/permitted-not-heeded changes nothing"),
        ("`YesStays`, ", "", "the sentences of A.13: the edits change"),
    ] {
        assert!(document.contains(old), "{}", old);
        let faults = faults(&document.replacen(old, new, 1));
        assert!(faults.iter().any(|fault| fault.contains(due)), "{}: {:?}", due, faults);
    }
}

/// A contract is compared by its words and by what they mean; an export does nothing but pass on.
#[test]
fn contracts_are_compared() {
    let brought = "ghost use Rattle.x.specs.F.{Is};\n";
    let code = |brought: &str, clause: &str, body: &str| {
        let text =
            format!("{}\npub fn f(a: u8) -> u8\n    {}\n{{\n{}\n}}\n", brought, clause, body);
        Function::new("x", "src/lib.rt", &text, "f").expect("a function")
    };
    let plain = code(brought, "ensures { Is a result }", "    y::g(a)");
    assert_eq!(plain.passes_on(), Some("y::g"));
    for (clause, body, passed) in [
        ("ensures {  Is a result }", "    y::g(a, b)", Some("y::g")),
        ("ensures {  Is a\n        result }", "    y::g(a)", Some("y::g")),
        ("ensures { Is a result\n        × Is result result }", "    y::g(a)", Some("y::g")),
        ("ensures { Is a a }", "    y::g(z::h(a))", None),
        ("requires { Is a a }\n    ensures { Is a result }", "    y::g(1 + a)", None),
        (
            "ensures one { Is a result }\n    ensures two { Is result a }",
            "    let b = y::g(a);\n    b",
            None,
        ),
    ] {
        let other = code(brought, clause, body);
        assert_eq!(plain.promises_as(&other), clause.contains("{  "), "{}", clause);
        assert_eq!(other.passes_on(), passed, "{}", body);
    }
    let elsewhere = code("ghost use Rattle.x.specs.G.{Is};\n", "ensures { Is a result }", "    a");
    assert!(!plain.promises_as(&elsewhere));
    assert_eq!(elsewhere.passes_on(), None);
}
