//! Words for names and roles, from a legend, and for whole concepts.

use std::collections::HashMap;

use hermitcasket::{OwnedTables, Result};

/// Concepts with more names, variables and roles than this are called by their ids: an "and" of each with itself,
/// written out, is as long as two to the number of concepts.
const MOST: u64 = 12;

/// Lines such as `name 14 butter roll` and `role 2 filled with`.
#[derive(Default)]
pub struct Legend {
    words: HashMap<(String, u16), String>,
}

/// Something, and nothing that a picture cannot hold.
fn is_plain(word: &str) -> bool {
    !word.is_empty() && !word.chars().any(char::is_control)
}

impl Legend {
    pub fn read(text: &str) -> std::result::Result<Legend, String> {
        let mut words = HashMap::new();
        for (at, line) in text.lines().enumerate().filter(|(_, line)| !line.is_empty()) {
            let mut parts = line.splitn(3, ' ');
            let kind = parts.next().filter(|kind| ["name", "role"].contains(kind));
            let number = parts.next().and_then(|number| number.parse().ok());
            match (kind, number, parts.next()) {
                (Some(kind), Some(number), Some(word)) if is_plain(word) => {
                    words.insert((kind.to_string(), number), word.to_string());
                }
                _ => {
                    return Err(format!(
                        "line {} is `{}`, not such as `name 14 butter roll`",
                        at + 1,
                        line
                    ))
                }
            }
        }
        Ok(Legend { words })
    }

    fn word(&self, kind: &str, number: u16) -> String {
        let word = self.words.get(&(kind.to_string(), number));
        word.cloned().unwrap_or_else(|| format!("{} {}", kind, number))
    }

    pub fn name(&self, number: u16) -> String {
        self.word("name", number)
    }

    pub fn role(&self, number: u16) -> String {
        self.word("role", number)
    }
}

/// A sentence of the library's in the words of the formats (01's).
pub fn house_words(sentence: &str) -> String {
    let pairs = [
        ("concepts", "entries"),
        ("concept", "entry"),
        ("variable", "blank"),
        ("atom", "part"),
        ("assignment", "filling"),
        ("interpretation", "stock"),
        ("element", "thing"),
        ("subsumed", "below"),
    ];
    pairs.iter().fold(sentence.to_string(), |said, (word, of_house)| said.replace(word, of_house))
}

/// Accepted tables with an assignment, and words for what is in them (01: entries, blanks, parts).
pub struct Wording<'a> {
    pub tables: &'a OwnedTables,
    pub assignment: &'a [u64],
    pub legend: &'a Legend,
}

impl Wording<'_> {
    pub fn row(&self, id: u16) -> [u16; 3] {
        let at = 3 * usize::from(id);
        [self.tables.concepts[at], self.tables.concepts[at + 1], self.tables.concepts[at + 2]]
    }

    pub fn inclusion(&self, place: u16) -> (u16, u16) {
        let at = 2 * usize::from(place);
        (self.tables.inclusions[at], self.tables.inclusions[at + 1])
    }

    /// The ids that are chosen for a variable.
    pub fn chosen(&self, variable: u16) -> Result<Vec<u16>> {
        self.tables.lend().chosen(self.assignment, variable)
    }

    /// How many words there are in each concept up to one, at most one more than `MOST`.
    fn sizes(&self, id: u16) -> Vec<u64> {
        let mut sizes: Vec<u64> = Vec::new();
        for id in 0..=id {
            let [kind, first, second] = self.row(id);
            let size = match kind {
                2 => 1 + sizes[usize::from(second)],
                3 => sizes[usize::from(first)] + sizes[usize::from(second)],
                _ => 1,
            };
            sizes.push(size.min(MOST + 1));
        }
        sizes
    }

    /// The concept in words.
    pub fn concept(&self, id: u16) -> String {
        if self.sizes(id)[usize::from(id)] > MOST {
            return format!("entry {}", id);
        }
        match self.row(id) {
            [1, name, _] => self.legend.name(name),
            [2, role, inner] => format!("{} {}", self.legend.role(role), self.inner(inner)),
            [3, first, second] => format!("{} and {}", self.inner(first), self.inner(second)),
            [4, variable, _] => format!("blank {}", variable),
            _ => "anything".to_string(),
        }
    }

    pub fn quoted(&self, id: u16) -> String {
        format!("\"{}\"", self.concept(id))
    }

    fn inner(&self, id: u16) -> String {
        match self.row(id) {
            [2 | 3, ..] => format!("({})", self.concept(id)),
            _ => self.concept(id),
        }
    }

    /// Several concepts at once, or anything where there are none.
    pub fn concepts(&self, ids: &[u16]) -> String {
        let words: Vec<String> = ids.iter().map(|&id| self.inner(id)).collect();
        match ids {
            [] => "anything".to_string(),
            [one] => self.concept(*one),
            _ => words.join(" and "),
        }
    }
}

#[cfg(test)]
mod tests {
    use super::{Legend, Wording};
    use hermitcasket::OwnedTables;

    fn said(concepts: Vec<u16>, id: u16) -> String {
        let tables = OwnedTables { concepts, variables: 1, ..OwnedTables::default() };
        let legend = Legend::read("name 5 rye flour\nrole 1 contains\n").expect("a legend");
        Wording { tables: &tables, assignment: &[0], legend: &legend }.concept(id)
    }

    #[test]
    fn concepts_in_words() {
        let concepts = vec![0, 0, 0, 1, 5, 0, 1, 6, 0, 2, 1, 1, 4, 0, 0, 3, 3, 4, 2, 2, 5];
        let words = (0..7).map(|id| said(concepts.clone(), id)).collect::<Vec<_>>();
        let due = [
            "anything",
            "rye flour",
            "name 6",
            "contains rye flour",
            "blank 0",
            "(contains rye flour) and blank 0",
            "role 2 ((contains rye flour) and blank 0)",
        ];
        assert_eq!(words, due);
    }

    /// Nested "and" of each with itself: twice the names at every step.
    #[test]
    fn large_concepts_are_called_by_their_ids() {
        let mut concepts = vec![1, 5, 0];
        for id in 0..191 {
            concepts.extend([3, id, id]);
        }
        assert_eq!(said(concepts.clone(), 1), "rye flour and rye flour");
        assert_eq!(said(concepts.clone(), 191), "entry 191");
        assert_eq!(said(concepts, 4), "entry 4");
    }

    #[test]
    fn a_legend_is_judged() {
        assert!(Legend::read("").is_ok());
        assert!(Legend::read("\nname 5 rye\n\n").is_ok());
        for line in ["name 5", "name five rye", "blank 5 rye", "name 5 ", "name 5 rye\u{1}"] {
            let due = format!("line 1 is `{}`, not such as `name 14 butter roll`", line);
            assert_eq!(Legend::read(line).err(), Some(due));
        }
    }
}
