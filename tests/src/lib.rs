//! The independent implementation that the proved library is held against, and what that takes:
//! the C interface, random tables, guarded buffers.

pub mod believed;
pub mod builder;
pub mod cited;
pub mod compare;
pub mod damage;
pub mod families;
pub mod faults;
pub mod generate;
pub mod hard;
pub mod house_text;
pub mod konclude;
pub mod layout;
pub mod lend;
pub mod limits;
pub mod nested;
pub mod orders;
pub mod owl;
pub mod planted;
pub mod process;
pub mod random;
pub mod reference;
pub mod scratch;
pub mod semantics;
pub mod settings;
pub mod settings_families;
pub mod shift;
pub mod substitution;
pub mod tables;
pub mod tally;
pub mod tried;

/// The library's functions, by the safe crate.
pub use hermitcasket::raw as capi;
