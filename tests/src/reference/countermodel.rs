//! The interpretation that is shown where a pair fails, and interpretations as rows of four
//! numbers (02, A.5).

use super::roles;
use crate::semantics::Interpretation;
use crate::tables::{Concept, Stock, Tables};

/// Element i stands for concept i. Row i, column j of the relation: i is subsumed by j. Then i
/// bears the name j, or is linked to the inner id of the existential j by every role that its own
/// counts as.
pub fn shown(tables: &Tables, relation: &[Vec<bool>]) -> Interpretation {
    let wider: Vec<_> = (0..relation.len()).map(|id| wider_roles(tables, id)).collect();
    let mut made = Interpretation::empty(relation.len());
    for (i, above) in relation.iter().enumerate() {
        for j in (0..above.len()).filter(|&j| above[j]) {
            match tables.concept(j) {
                Concept::Name(name) => {
                    made.names[i].insert(name);
                }
                Concept::Existential(_, inner) => {
                    made.links[i].extend(wider[j].iter().map(|&role| (role, inner)));
                }
                Concept::Top | Concept::Conjunction(..) | Concept::Variable(_) => {}
            }
        }
    }
    made
}

/// The roles that an existential's role counts as; none for another concept.
fn wider_roles(tables: &Tables, id: usize) -> Vec<u16> {
    match tables.concept(id) {
        Concept::Existential(role, _) => roles::wider(tables, role).into_iter().collect(),
        _ => Vec::new(),
    }
}

/// The rows of the shown interpretation.
pub fn shown_rows(tables: &Tables, relation: &[Vec<bool>]) -> Vec<u16> {
    rows(&shown(tables, relation))
}

/// (0, element, name, 0) and then (1, element, role, element), rising.
pub fn rows(interpretation: &Interpretation) -> Vec<u16> {
    let mut rows = Vec::new();
    for (x, names) in interpretation.names.iter().enumerate() {
        names.iter().for_each(|&name| rows.extend([0, x as u16, name, 0]));
    }
    for (x, links) in interpretation.links.iter().enumerate() {
        links.iter().for_each(|&(role, y)| rows.extend([1, x as u16, role, y as u16]));
    }
    rows
}

/// What accepted rows say, in any order and with repeats.
pub fn read(stock: &Stock) -> Interpretation {
    let mut said = Interpretation::empty(usize::from(stock.size));
    for [kind, element, symbol, target] in stock.split() {
        let x = usize::from(element);
        if kind == 0 {
            said.names[x].insert(symbol);
        } else {
            said.links[x].insert((symbol, usize::from(target)));
        }
    }
    said
}
