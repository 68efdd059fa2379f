//! Matching in the description logic EL under general inclusions, proved.
//!
//! A catalogue is a list of inclusions ("every brioche is a dough"), a card is a concept with variables
//! (blanks), and a question asks whether the card, once its variables are assigned, is subsumed by (below)
//! another concept. Every answer of this crate is that of a library whose functions were proved against
//! short definitions; the crate itself allocates the buffers, and turns numbers into types.
//!
//! ```
//! use hermitcasket::Tables;
//!
//! let tables = Tables {
//!     // 0 brioche, 1 butter, 2 filled with brioche, 3 pastry, 4 a variable, 5 butter and the variable
//!     concepts: &[1, 5, 0, 1, 7, 0, 2, 1, 0, 1, 9, 0, 4, 0, 0, 3, 1, 4],
//!     inclusions: &[2, 3],      // what is filled with brioche is pastry
//!     questions: &[5, 3, 2, 4], // 5 is to be below 3, and 2 below 4
//!     variables: 1,
//!     ..Tables::default()
//! };
//! let assignment = tables.find_assignment()?.expect("something fills the card");
//! assert_eq!(tables.chosen(&assignment, 0)?, [3]); // pastry
//! assert!(tables.is_subsumed(&assignment, 5, 3)?); // butter and pastry is pastry
//! # Ok::<(), hermitcasket::Refusal>(())
//! ```
//!
//! **Words.** The crate uses the field's. In the bakery's, which the C header and the programs use, a concept is an
//! entry, a variable a blank, an atom a part, an assignment a filling, an interpretation a stock, an element a
//! thing, and subsumed is below.
//!
//! **Answers.** Every operation gives a [`Result`]. An error is a [`Refusal`]: the reason with its number, the
//! place, and a sentence. "None" is no error: [`Tables::find_assignment`] gives `Ok(None)` exactly when no
//! substitution of concepts of any size for the variables makes every question hold.
//!
//! **Linking.** `rt lib` in the folder `crates/capi` of the repository writes the library that this crate links. The
//! environment variable `HERMITCASKET_LIBRARY` has the whole path of another folder with `libcapi.a`, which is for
//! x86-64.
//!
//! **Stack.** A search may need [`limits::STACK`] bytes of it. Where a thread has fewer left, the program ends as it
//! does when Rust's own code overflows the stack. Threads of Rust have 2 MiB unless told otherwise.

#![deny(unsafe_code)]

pub mod limits;
#[allow(unsafe_code)]
pub mod raw;

mod countermodel;
mod derivations;
mod incremental;
mod matching;
mod owl;
mod refusal;
mod renumbering;
mod subsumption;
mod tables;

pub use countermodel::Interpretation;
pub use derivations::Derivation;
pub use matching::{Assignment, Batch, Counted, Settings};
pub use owl::read_owl;
pub use refusal::{Reason, Refusal};
pub use subsumption::SubsumptionTable;
pub use tables::{OwnedTables, Tables};

/// What an operation gives, or why it did not.
pub type Result<T> = std::result::Result<T, Refusal>;
