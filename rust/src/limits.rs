//! The limits of tables and texts, and what buffers must hold. What is over a limit is refused.

pub const CONCEPTS: usize = 192;
pub const INCLUSIONS: usize = 96;
pub const QUESTIONS: usize = 32;
pub const ROLE_PAIRS: usize = 32;
pub const VARIABLES: usize = 8;
/// Names of concepts are 0 to this.
pub const NAME: u16 = 999;
/// Roles in concepts and role pairs are 0 to this; in an interpretation they are any numbers.
pub const ROLE: u16 = 99;
pub const ATOMS: usize = 64;
/// Largest counts in settings are 0 to this.
pub const COUNT: u16 = 64;
/// Elements of a given interpretation.
pub const ELEMENTS: u16 = 192;
/// Question tables of a batch.
pub const BATCH: usize = 8;
/// Decisions that one table of a batch may be given.
pub const SHARE: u32 = 1_000_000;
/// Bytes of a catalogue in OWL functional syntax.
pub const TEXT: usize = 8192;
/// How deep a class in it may be begun; an axiom's sides are 1 deep.
pub const DEPTH: usize = 32;

/// Bytes of a row of the subsumption table.
pub const ROW_BYTES: usize = 24;
/// Numbers that a buffer for atoms or chosen ids must hold, however few are written.
pub const ATOM_ROOM: usize = 64;
/// Numbers that the buffer for a catalogue's concepts must hold.
pub const CATALOGUE_CONCEPTS: usize = 3 * CONCEPTS;
/// Numbers that the buffer for a catalogue's inclusions must hold.
pub const CATALOGUE_INCLUSIONS: usize = 2 * INCLUSIONS;

/// Numbers that the buffer for a derivation must hold, for so many concepts.
pub const fn line_room(concepts: usize) -> usize {
    4 * concepts * concepts
}

/// Bytes of stack that an operation needs at most. The header has the number of each.
pub const STACK: usize = 1_114_112;
