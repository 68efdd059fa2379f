//! Marks in the bytes of a subsumption table: 24 bytes a row, bit j mod 8 of byte j div 8.

use crate::limits::ROW_BYTES;

/// Row i, column j: i is marked as subsumed by j.
pub type Relation = Vec<Vec<bool>>;

fn place(i: usize, j: usize) -> (usize, u8) {
    (i * ROW_BYTES + j / 8, 1 << (j % 8))
}

/// The marks of the first so many rows and columns.
pub fn read(bytes: &[u8], count: usize) -> Relation {
    let mark = |i: usize, j: usize| {
        let (at, bit) = place(i, j);
        bytes[at] & bit != 0
    };
    (0..count).map(|i| (0..count).map(|j| mark(i, j)).collect()).collect()
}

/// Puts these marks over those of the first rows and columns, as far as the bytes reach. All other
/// bits stay.
pub fn write(bytes: &mut [u8], marks: &Relation) {
    for (i, row) in marks.iter().enumerate() {
        for (j, &mark) in row.iter().enumerate() {
            let (at, bit) = place(i, j);
            if let Some(byte) = bytes.get_mut(at) {
                *byte = if mark { *byte | bit } else { *byte & !bit };
            }
        }
    }
}
