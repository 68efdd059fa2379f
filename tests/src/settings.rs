//! What each variable may take (02: permitted parts, and a largest count), damaged or not.

use std::fmt;

use crate::limits::MAX_ATOMS;
use crate::reference::atoms;
use crate::tables::Tables;

/// It prints as Rust text.
#[derive(Clone, Debug, Default, PartialEq, Eq)]
pub struct Settings {
    /// The permitted atoms of each variable, in the bits of a choice.
    pub permitted: Vec<u64>,
    /// How many of them it may take at most.
    pub largest: Vec<u16>,
}

impl Settings {
    pub fn new(permitted: &[u64], largest: &[u16]) -> Self {
        Settings { permitted: permitted.to_vec(), largest: largest.to_vec() }
    }

    /// All atoms of accepted tables, and 64 everywhere.
    pub fn open(tables: &Tables) -> Self {
        Settings::counted(tables, MAX_ATOMS as u16)
    }

    /// All atoms of accepted tables, and this count everywhere.
    pub fn counted(tables: &Tables, largest: u16) -> Self {
        let variables = usize::from(tables.variables);
        Settings {
            permitted: vec![all_atoms(tables); variables],
            largest: vec![largest; variables],
        }
    }
}

/// The choice of every atom of accepted tables.
pub fn all_atoms(tables: &Tables) -> u64 {
    match atoms::list(tables).len() {
        0 => 0,
        count => u64::MAX >> (MAX_ATOMS - count),
    }
}

impl fmt::Display for Settings {
    fn fmt(&self, f: &mut fmt::Formatter<'_>) -> fmt::Result {
        let Settings { permitted, largest } = self;
        write!(f, "Settings {{ permitted: vec!{:?}, largest: vec!{:?} }}", permitted, largest)
    }
}
