//! The limits of 01, "Tables" and "Operations", and of 02.

pub const MAX_CONCEPTS: usize = 192;
pub const MAX_INCLUSIONS: usize = 96;
pub const MAX_QUESTIONS: usize = 32;
pub const MAX_ROLE_PAIRS: usize = 32;
pub const MAX_VARIABLES: usize = 8;
pub const MAX_ATOMS: usize = 64;
pub const MAX_ELEMENTS: usize = 192;
pub const MAX_NAME: u16 = 999;
pub const MAX_ROLE: u16 = 99;

/// Bytes of one row of the subsumption table.
pub const ROW_BYTES: usize = 24;
/// Numbers that the buffer for the atoms, or for the chosen ids, must hold, however few are
/// written.
pub const ATOM_ROOM: usize = 64;

/// Numbers that the buffers for the concepts and the inclusions of a catalogue must hold, however few
/// are written.
pub const CATALOGUE_ROOMS: [usize; 2] = [3 * MAX_CONCEPTS, 2 * MAX_INCLUSIONS];
/// How deep a class of a catalogue may be begun; an axiom's sides are 1 deep.
pub const MAX_DEPTH: usize = 32;

/// Bytes of the longest text that is judged: line by line, or token by token.
pub const MAX_TEXT: usize = 8192;

/// Numbers that the buffer for a derivation must hold, however few are written.
pub fn line_room(concepts: usize) -> usize {
    4 * concepts * concepts
}
