//! Konclude classifies a catalogue: each entry is a class :eN, defined over the classes of its
//! inner entries. The table is read from the hierarchy that it writes.

use std::fmt::Write;
use std::fs;
use std::process::Command;

use hermitcasket_tests::konclude::{is_installed, Hierarchy, PREFIX, PROGRAM};
use hermitcasket_tests::tables::{Concept, Tables};

use super::{best, run, Scratch, Timed, LIMIT};

pub fn installed() -> bool {
    is_installed(PROGRAM)
}

/// Row i, column j: entry i is below entry j.
pub type Relation = Vec<Vec<bool>>;

pub fn classify(tables: &Tables, scratch: &Scratch) -> Timed<Relation> {
    let (input, output) = (scratch.file("catalogue.ofn"), scratch.file("hierarchy.owx"));
    fs::write(&input, ontology(tables)).expect("a file for Konclude");
    best(|| {
        let _ = fs::remove_file(&output);
        // with one worker some versions wait for ever
        let mut command = Command::new(PROGRAM);
        command.args(["classification", "-w", "2", "-i"]).arg(&input).arg("-o").arg(&output);
        let time = run(&mut command, &scratch.file("konclude.log"), LIMIT)?;
        let hierarchy = fs::read_to_string(&output).expect("Konclude's hierarchy");
        Some((relation(&hierarchy, tables.concept_count()), time))
    })
}

/// The catalogue in OWL functional syntax. Top is a class of its own above all entries: with
/// owl:Thing, Konclude 0.7.0 misses pairs where everything is equivalent.
fn ontology(tables: &Tables) -> String {
    let count = tables.concept_count();
    let mut text = format!("Prefix(:=<{}>)\nOntology(<http://hermitcasket.test>\n", PREFIX);
    for id in 0..count {
        let _ = writeln!(text, "Declaration(Class(:e{}))", id);
        let _ = writeln!(text, "EquivalentClasses(:e{} {})", id, class(tables.concept(id)));
    }
    for (narrow, wide) in tables.role_pairs() {
        let _ = writeln!(text, "SubObjectPropertyOf(:r{} :r{})", narrow, wide);
    }
    let mut pairs = tables.inclusion_pairs();
    if let Some(top) = (0..count).find(|&id| tables.concept(id) == Concept::Top) {
        pairs.extend((0..count).map(|id| (id, top)));
    }
    for (left, right) in pairs {
        let _ = writeln!(text, "SubClassOf(:e{} :e{})", left, right);
    }
    text + ")\n"
}

fn class(concept: Concept) -> String {
    match concept {
        Concept::Top => ":top".to_string(),
        Concept::Name(name) => format!(":c{}", name),
        Concept::Existential(role, inner) => {
            format!("ObjectSomeValuesFrom(:r{} :e{})", role, inner)
        }
        Concept::Conjunction(a, b) if a == b => format!(":e{}", a),
        Concept::Conjunction(a, b) => format!("ObjectIntersectionOf(:e{} :e{})", a, b),
        Concept::Variable(_) => panic!("a catalogue without blanks"),
    }
}

fn relation(text: &str, count: usize) -> Relation {
    let mut hierarchy = Hierarchy::read(text);
    let of_id = |id: usize| hierarchy.place(&format!("e{}", id));
    let places: Vec<usize> = (0..count).map(of_id).collect();
    let row = |&place: &usize| {
        let reached = hierarchy.reached(place);
        places.iter().map(|&other| reached[other]).collect()
    };
    places.iter().map(row).collect()
}
