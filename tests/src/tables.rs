//! The tables as lists of numbers, their decoding, and cases that print as Rust text.

use std::fmt;

use crate::limits::{line_room, ATOM_ROOM, ROW_BYTES};
use crate::orders::identity;
use crate::settings::Settings;

/// The raw tables, damaged or not. 01: entries, inclusions, questions, number of blanks; 02: roles.
#[derive(Clone, Debug, Default, PartialEq, Eq)]
pub struct Tables {
    pub concepts: Vec<u16>,
    pub inclusions: Vec<u16>,
    pub questions: Vec<u16>,
    /// Pairs of roles, narrow and wide.
    pub roles: Vec<u16>,
    pub variables: u16,
}

/// Lent tables: what one call takes.
pub use hermitcasket::Tables as TablesRef;

/// One row of an accepted concept table. 01: top, name, "some", "and", blank.
#[derive(Clone, Copy, Debug, PartialEq, Eq)]
pub enum Concept {
    Top,
    Name(u16),
    Existential(u16, usize),
    Conjunction(usize, usize),
    Variable(usize),
}

impl Tables {
    /// Without role pairs.
    pub fn new(
        concepts: &[[u16; 3]],
        inclusions: &[[u16; 2]],
        questions: &[[u16; 2]],
        variables: u16,
    ) -> Self {
        Tables {
            concepts: concepts.concat(),
            inclusions: inclusions.concat(),
            questions: questions.concat(),
            roles: Vec::new(),
            variables,
        }
    }

    /// The same with these role pairs, narrow and wide, behind the others.
    pub fn with_roles(mut self, pairs: &[[u16; 2]]) -> Self {
        self.roles.extend(pairs.concat());
        self
    }

    pub fn lend(&self) -> TablesRef<'_> {
        TablesRef {
            concepts: &self.concepts,
            inclusions: &self.inclusions,
            questions: &self.questions,
            roles: &self.roles,
            variables: self.variables,
        }
    }

    /// Whole rows only: a ragged rest is no concept.
    pub fn concept_count(&self) -> usize {
        self.concepts.len() / 3
    }

    /// How many numbers concepts, inclusions and questions have.
    pub fn lengths(&self) -> [usize; 3] {
        [self.concepts.len(), self.inclusions.len(), self.questions.len()]
    }

    pub fn row(&self, id: usize) -> [u16; 3] {
        let at = 3 * id;
        [self.concepts[at], self.concepts[at + 1], self.concepts[at + 2]]
    }

    /// Only for tables that checks 1 to 3 accept.
    pub fn concept(&self, id: usize) -> Concept {
        let [kind, a, b] = self.row(id);
        match kind {
            0 => Concept::Top,
            1 => Concept::Name(a),
            2 => Concept::Existential(a, usize::from(b)),
            3 => Concept::Conjunction(usize::from(a), usize::from(b)),
            4 => Concept::Variable(usize::from(a)),
            _ => panic!("concept {} of kind {} was not checked", id, kind),
        }
    }

    pub fn inclusion_pairs(&self) -> Vec<(usize, usize)> {
        pairs(&self.inclusions)
    }

    pub fn question_pairs(&self) -> Vec<(usize, usize)> {
        pairs(&self.questions)
    }

    /// Narrow and wide role of each pair.
    pub fn role_pairs(&self) -> impl Iterator<Item = (u16, u16)> + '_ {
        self.roles.chunks_exact(2).map(|pair| (pair[0], pair[1]))
    }
}

/// A given interpretation (02: stock) as it is lent: the number of its elements (things), and rows
/// of four numbers, (0, element, name, 0) and (1, element, role, element), damaged or not.
#[derive(Clone, Debug, Default, PartialEq, Eq)]
pub struct Stock {
    pub size: u16,
    pub rows: Vec<u16>,
}

impl Stock {
    pub fn new(size: u16, rows: &[[u16; 4]]) -> Self {
        Stock { size, rows: rows.concat() }
    }

    /// Whole rows only.
    pub fn split(&self) -> impl Iterator<Item = [u16; 4]> + '_ {
        self.rows.chunks_exact(4).map(|row| [row[0], row[1], row[2], row[3]])
    }
}

fn pairs(numbers: &[u16]) -> Vec<(usize, usize)> {
    numbers.chunks_exact(2).map(|pair| (usize::from(pair[0]), usize::from(pair[1]))).collect()
}

/// All that the operations are lent. It prints as Rust text, for the functions of `compare`.
#[derive(Clone, Debug)]
pub struct Case {
    pub tables: Tables,
    pub assignment: Vec<u64>,
    pub pair: (u16, u16),
    /// Length of the buffer for the atoms, in numbers.
    pub atom_room: usize,
    /// Length of the buffer for the subsumption table, in bytes.
    pub table_room: usize,
    /// Length of the buffer for the matcher's assignment, in numbers.
    pub match_room: usize,
    /// What the matcher may take, and how many decisions it is allowed.
    pub settings: Settings,
    pub allowance: u32,
    /// The question whose group is matched alone.
    pub question: u16,
    /// The lengths of the question tables of a batch, which lie in `tables`, and their shares.
    pub lengths: Vec<u16>,
    pub shares: Vec<u32>,
    /// The variable whose chosen ids are listed, and the length of the buffer for them.
    pub variable: u16,
    pub chosen_room: usize,
    /// Length of the buffer for a derivation, in numbers.
    pub line_room: usize,
    /// A derivation to check.
    pub lines: Vec<u16>,
    /// Length of the buffer for the rows of a shown interpretation, in numbers.
    pub row_room: usize,
    /// A given interpretation, and the concept and the element asked of it.
    pub stock: Stock,
    pub asked: (u16, u16),
    /// An assignment told as pairs of a variable and an id.
    pub told: Vec<u16>,
    /// The bytes of a held subsumption table.
    pub held: Vec<u8>,
    /// For each id its new one, and the lengths of the buffers for the renumbered concepts,
    /// inclusions and questions, in numbers.
    pub order: Vec<u16>,
    pub renumbered_rooms: [usize; 3],
}

impl Case {
    /// Buffers as long as wanted, but none for shown rows, whose number is not known yet; the pair
    /// (0, 0), no settings, the largest allowance, question 0, no batch, variable 0, no lines, no elements, nothing told, no
    /// held table, each id its own new one.
    pub fn new(tables: Tables, assignment: &[u64]) -> Self {
        let table_room = tables.concept_count() * ROW_BYTES;
        let match_room = usize::from(tables.variables);
        let line_room = line_room(tables.concept_count());
        let order = identity(tables.concept_count());
        let renumbered_rooms = tables.lengths();
        Case {
            tables,
            assignment: assignment.to_vec(),
            pair: (0, 0),
            atom_room: ATOM_ROOM,
            table_room,
            match_room,
            settings: Settings::default(),
            allowance: u32::MAX,
            question: 0,
            lengths: Vec::new(),
            shares: Vec::new(),
            variable: 0,
            chosen_room: ATOM_ROOM,
            line_room,
            lines: Vec::new(),
            row_room: 0,
            stock: Stock::default(),
            asked: (0, 0),
            told: Vec::new(),
            held: Vec::new(),
            order,
            renumbered_rooms,
        }
    }
}

impl fmt::Display for Tables {
    fn fmt(&self, f: &mut fmt::Formatter<'_>) -> fmt::Result {
        writeln!(f, "Tables {{")?;
        writeln!(f, "    concepts: vec!{:?},", self.concepts)?;
        writeln!(f, "    inclusions: vec!{:?},", self.inclusions)?;
        writeln!(f, "    questions: vec!{:?},", self.questions)?;
        writeln!(f, "    roles: vec!{:?},", self.roles)?;
        writeln!(f, "    variables: {},", self.variables)?;
        write!(f, "}}")
    }
}

/// Numbers of a long list of rows that are printed.
const PRINTED: usize = 20_000;

impl fmt::Display for Stock {
    fn fmt(&self, f: &mut fmt::Formatter<'_>) -> fmt::Result {
        let shown = &self.rows[..self.rows.len().min(PRINTED)];
        write!(f, "Stock {{ size: {}, rows: vec!{:?}", self.size, shown)?;
        if shown.len() < self.rows.len() {
            write!(f, " /* cut: {} numbers in all */", self.rows.len())?;
        }
        write!(f, " }}")
    }
}

impl fmt::Display for Case {
    fn fmt(&self, f: &mut fmt::Formatter<'_>) -> fmt::Result {
        writeln!(f, "Case {{")?;
        writeln!(f, "tables: {},", self.tables)?;
        writeln!(f, "assignment: vec!{:?},", self.assignment)?;
        writeln!(f, "pair: {:?},", self.pair)?;
        writeln!(f, "atom_room: {},", self.atom_room)?;
        writeln!(f, "table_room: {},", self.table_room)?;
        writeln!(f, "match_room: {},", self.match_room)?;
        writeln!(f, "settings: {},", self.settings)?;
        writeln!(f, "allowance: {},", self.allowance)?;
        writeln!(f, "question: {},", self.question)?;
        writeln!(f, "lengths: vec!{:?},", self.lengths)?;
        writeln!(f, "shares: vec!{:?},", self.shares)?;
        writeln!(f, "variable: {},", self.variable)?;
        writeln!(f, "chosen_room: {},", self.chosen_room)?;
        writeln!(f, "line_room: {},", self.line_room)?;
        writeln!(f, "lines: vec!{:?},", self.lines)?;
        writeln!(f, "row_room: {},", self.row_room)?;
        writeln!(f, "stock: {},", self.stock)?;
        writeln!(f, "asked: {:?},", self.asked)?;
        writeln!(f, "told: vec!{:?},", self.told)?;
        writeln!(f, "held: vec!{:?},", self.held)?;
        writeln!(f, "order: vec!{:?},", self.order)?;
        writeln!(f, "renumbered_rooms: {:?},", self.renumbered_rooms)?;
        write!(f, "}}")
    }
}
