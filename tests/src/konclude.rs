//! The hierarchy that Konclude, a reasoner for OWL 2, writes for an ontology; and whether it is
//! installed.

use std::collections::HashMap;
use std::env;

pub const PROGRAM: &str = "Konclude";
/// What the empty prefix stands for.
pub const PREFIX: &str = "http://hermitcasket.test/";

pub fn is_installed(tool: &str) -> bool {
    let path = env::var_os("PATH").unwrap_or_default();
    env::split_paths(&path).any(|folder| folder.join(tool).is_file())
}

/// The axioms as the file that Konclude reads: prefixes, and `Ontology( )` around them. The OWL
/// namespace is that of the W3C.
pub fn wrapped(axioms: &str) -> String {
    format!(
        "Prefix(:=<{}>)\nPrefix(owl:=<http://www.w3.org/2002/07/owl#>)\n\
         Ontology(<http://hermitcasket.test>\n{}\n)\n",
        PREFIX, axioms
    )
}

/// The classes of the hierarchy and the steps up from each.
#[derive(Default)]
pub struct Hierarchy {
    places: HashMap<String, usize>,
    above: Vec<Vec<usize>>,
}

impl Hierarchy {
    fn place_of(&mut self, class: &str) -> usize {
        let next = self.places.len();
        let place = *self.places.entry(class.to_string()).or_insert(next);
        if place == next {
            self.above.push(Vec::new());
        }
        place
    }

    /// The place of a class of the empty prefix.
    pub fn place(&mut self, class: &str) -> usize {
        self.place_of(&format!("{}{}", PREFIX, class))
    }

    /// Reads OWL/XML line by line: two or more classes in one axiom.
    pub fn read(text: &str) -> Hierarchy {
        let mut made = Hierarchy::default();
        let mut classes: Vec<usize> = Vec::new();
        for line in text.lines().map(str::trim) {
            if let Some(class) = line.strip_prefix("<Class IRI=\"") {
                classes.push(made.place_of(class.trim_end_matches("\"/>")));
            } else if line == "</SubClassOf>" {
                made.above[classes[0]].push(classes[1]);
            } else if line == "</EquivalentClasses>" {
                for k in 0..classes.len() {
                    made.above[classes[k]].push(classes[(k + 1) % classes.len()]);
                }
            } else {
                classes.clear();
            }
        }
        made
    }

    /// Which classes are above this one, itself among them.
    pub fn reached(&self, from: usize) -> Vec<bool> {
        let mut reached = vec![false; self.above.len()];
        let mut open = vec![from];
        while let Some(class) = open.pop() {
            if !reached[class] {
                reached[class] = true;
                open.extend(&self.above[class]);
            }
        }
        reached
    }
}
