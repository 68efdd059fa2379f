//! Tables under new ids. `order[i]` is the new id of i.

use crate::checks::{Input, Refusal};

/// Check 21.
pub fn accept_list(order: &[u16], count: usize) -> Result<(), Refusal> {
    let mut seen = [false; 192];
    for (place, &number) in order.iter().enumerate() {
        let id = usize::from(number);
        if id >= count || seen[id] {
            return Err((21, place as u64));
        }
        seen[id] = true;
    }
    if order.len() < count {
        return Err((21, order.len() as u64));
    }
    Ok(())
}

/// A row with its inner ids replaced.
fn moved(order: &[u16], row: &[u16]) -> [u16; 3] {
    match row[0] {
        2 => [2, row[1], order[usize::from(row[2])]],
        3 => [3, order[usize::from(row[1])], order[usize::from(row[2])]],
        _ => [row[0], row[1], row[2]],
    }
}

/// Check 22.
pub fn accept_rows(input: &Input, order: &[u16]) -> Result<(), Refusal> {
    for (id, row) in input.concepts.chunks_exact(3).enumerate() {
        let [kind, first, second] = moved(order, row);
        if (kind == 3 && first >= order[id]) || (matches!(kind, 2 | 3) && second >= order[id]) {
            return Err((22, id as u64));
        }
    }
    Ok(())
}

/// Each row goes to the place of its new id.
pub fn write_rows(input: &Input, order: &[u16], out: &mut [u16]) {
    for (id, row) in input.concepts.chunks_exact(3).enumerate() {
        let at = 3 * usize::from(order[id]);
        out[at..at + 3].copy_from_slice(&moved(order, row));
    }
}

pub fn write_ids(order: &[u16], ids: &[u16], out: &mut [u16]) {
    for (new, &id) in out.iter_mut().zip(ids) {
        *new = order[usize::from(id)];
    }
}
