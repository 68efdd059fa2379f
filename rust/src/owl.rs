//! Catalogues in OWL functional syntax.

use crate::raw;
use crate::refusal::{Asked, Beside};
use crate::{limits, OwnedTables, Refusal, Result};

/// Reads a catalogue in OWL functional syntax: its concepts and inclusions. A run of `SubClassOf( )` over
/// `owl:Thing`, `:cN` (name N), `ObjectIntersectionOf( )` and `ObjectSomeValuesFrom( )` with `:rN` (role N).
///
/// ```
/// let read = hermitcasket::read_owl(b"SubClassOf( :c7 :c8 )")?;
/// assert_eq!((read.concepts, read.inclusions), (vec![1, 7, 0, 1, 8, 0], vec![0, 1]));
/// let refusal = hermitcasket::read_owl(b"SubClassOf( :c7 )").unwrap_err();
/// assert_eq!(refusal.to_string(), "refusal 17: what starts at byte 16 is none of the syntax there");
/// # Ok::<(), hermitcasket::Refusal>(())
/// ```
pub fn read_owl(text: &[u8]) -> Result<OwnedTables> {
    let mut concepts = vec![0; limits::CATALOGUE_CONCEPTS];
    let mut inclusions = vec![0; limits::CATALOGUE_INCLUSIONS];
    let read = raw::read_owl(text, &mut concepts, &mut inclusions);
    if read.number != 0 {
        let beside = Beside { asked: Asked::Catalogue, length: text.len(), ..Beside::default() };
        return Err(Refusal::new(read.number, read.place, beside));
    }
    concepts.truncate(3 * read.concepts as usize);
    inclusions.truncate(2 * read.inclusions as usize);
    Ok(OwnedTables { concepts, inclusions, ..OwnedTables::default() })
}
