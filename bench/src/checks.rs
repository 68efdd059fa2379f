//! The checks 1 to 6, 16, 7, 9 and 19, in one pass over each table; of a given interpretation, and of
//! told pairs.

use crate::columns::{count_ones, each, has, insert, Set, EMPTY};

/// Number and place of 01's refusal table.
pub type Refusal = (u16, u64);

#[derive(Clone, Copy)]
pub struct Input<'a> {
    pub concepts: &'a [u16],
    pub inclusions: &'a [u16],
    pub questions: &'a [u16],
    pub roles: &'a [u16],
    pub variables: u16,
}

impl Input<'_> {
    pub fn row(&self, id: usize) -> (u16, usize, usize) {
        let row = &self.concepts[3 * id..3 * id + 3];
        (row[0], usize::from(row[1]), usize::from(row[2]))
    }
}

/// A given interpretation: how many elements it has, and its rows of four numbers.
#[derive(Clone, Copy)]
pub struct Stock<'a> {
    pub size: u16,
    pub rows: &'a [u16],
}

/// What the checks find out about accepted tables.
pub struct Accepted {
    pub count: usize,
    pub atoms: Set,
}

impl Accepted {
    /// The choice of every atom.
    pub fn all_atoms(&self) -> u64 {
        match count_ones(&self.atoms) {
            64 => u64::MAX,
            count => (1 << count) - 1,
        }
    }
}

pub fn accept(input: &Input, pair: Option<(u16, u16)>) -> Result<Accepted, Refusal> {
    check_counts(input)?;
    let count = input.concepts.len() / 3;
    check_rows(input, count)?;
    check_inner_ids(input, count)?;
    check_pairs(input, count, pair)?;
    let patterns = patterns(input, count);
    check_patterns(input, &patterns)?;
    check_roles(input)?;
    let atoms = lowest_twins(input, &atoms_with_copies(input, count, &patterns));
    if count_ones(&atoms) > 64 {
        return Err((7, 64));
    }
    Ok(Accepted { count, atoms })
}

pub fn accept_assignment(
    input: &Input,
    accepted: &Accepted,
    assignment: &[u64],
) -> Result<(), Refusal> {
    if assignment.len() != usize::from(input.variables) {
        return Err((9, u64::from(input.variables)));
    }
    let allowed = accepted.all_atoms();
    match assignment.iter().position(|choice| choice & !allowed != 0) {
        Some(variable) => Err((9, variable as u64)),
        None => Ok(()),
    }
}

pub fn accept_settings(
    input: &Input,
    accepted: &Accepted,
    permitted: &[u64],
    largest: &[u16],
) -> Result<(), Refusal> {
    let variables = usize::from(input.variables);
    if permitted.len() != variables || largest.len() != variables {
        return Err((19, variables as u64));
    }
    let allowed = accepted.all_atoms();
    match (0..variables).find(|&k| permitted[k] & !allowed != 0 || largest[k] > 64) {
        Some(variable) => Err((19, variable as u64)),
        None => Ok(()),
    }
}

/// Each variable's atoms.
pub fn accept_told(input: &Input, accepted: &Accepted, told: &[u16]) -> Result<[Set; 8], Refusal> {
    if told.len() % 2 != 0 {
        return Err((9, 0));
    }
    let mut chosen = [EMPTY; 8];
    for (place, pair) in told.chunks_exact(2).enumerate() {
        let id = usize::from(pair[1]);
        if pair[0] >= input.variables || id >= accepted.count || !has(&accepted.atoms, id) {
            return Err((9, place as u64));
        }
        insert(&mut chosen[usize::from(pair[0])], id);
    }
    Ok(chosen)
}

pub fn accept_stock(
    accepted: &Accepted,
    stock: Stock,
    (concept, element): (u16, u16),
) -> Result<(), Refusal> {
    let size = stock.size;
    if size == 0 || size > 192 || stock.rows.len() % 4 != 0 {
        return Err((1, 0));
    }
    let well_formed = |row: &[u16]| match row[0] {
        0 => row[1] < size && row[3] == 0,
        1 => row[1] < size && row[3] < size,
        _ => false,
    };
    if let Some(place) = stock.rows.chunks_exact(4).position(|row| !well_formed(row)) {
        return Err((2, place as u64));
    }
    if usize::from(concept) >= accepted.count {
        return Err((4, 0));
    }
    if element >= size {
        return Err((4, 1));
    }
    Ok(())
}

fn check_counts(input: &Input) -> Result<(), Refusal> {
    let place = if input.concepts.len() % 3 != 0 || input.concepts.len() > 3 * 192 {
        0
    } else if input.inclusions.len() % 2 != 0 || input.inclusions.len() > 2 * 96 {
        1
    } else if input.questions.len() % 2 != 0 || input.questions.len() > 2 * 32 {
        2
    } else if input.variables > 8 {
        3
    } else if input.roles.len() % 2 != 0 || input.roles.len() > 2 * 32 {
        4
    } else {
        return Ok(());
    };
    Err((1, place))
}

fn check_rows(input: &Input, count: usize) -> Result<(), Refusal> {
    for id in 0..count {
        let (kind, a, b) = input.row(id);
        let well_formed = match kind {
            0 => a == 0 && b == 0,
            1 => a < 1000 && b == 0,
            2 => a < 100,
            3 => true,
            4 => a < usize::from(input.variables) && b == 0,
            _ => false,
        };
        if !well_formed {
            return Err((2, id as u64));
        }
    }
    Ok(())
}

fn check_inner_ids(input: &Input, count: usize) -> Result<(), Refusal> {
    for id in 0..count {
        let (kind, a, b) = input.row(id);
        if (kind == 2 && b >= id) || (kind == 3 && (a >= id || b >= id)) {
            return Err((3, id as u64));
        }
    }
    Ok(())
}

fn check_pairs(input: &Input, count: usize, pair: Option<(u16, u16)>) -> Result<(), Refusal> {
    let known = |id: u16| usize::from(id) < count;
    if let Some((left, right)) = pair {
        if !known(left) || !known(right) {
            return Err((4, 0));
        }
    }
    let mut place = 0;
    for list in [input.inclusions, input.questions] {
        for pair in list.chunks_exact(2) {
            if !known(pair[0]) || !known(pair[1]) {
                return Err((4, place));
            }
            place += 1;
        }
    }
    Ok(())
}

/// Ids that hold a variable at any depth.
fn patterns(input: &Input, count: usize) -> Set {
    let mut set = EMPTY;
    for id in 0..count {
        let holds = match input.row(id) {
            (2, _, inner) => has(&set, inner),
            (3, first, second) => has(&set, first) || has(&set, second),
            (kind, _, _) => kind == 4,
        };
        if holds {
            insert(&mut set, id);
        }
    }
    set
}

fn check_patterns(input: &Input, patterns: &Set) -> Result<(), Refusal> {
    let pattern = |id: u16| has(patterns, usize::from(id));
    let mut inclusions = input.inclusions.chunks_exact(2);
    if let Some(place) = inclusions.position(|p| pattern(p[0]) || pattern(p[1])) {
        return Err((5, place as u64));
    }
    let mut questions = input.questions.chunks_exact(2);
    match questions.position(|p| pattern(p[0]) && pattern(p[1])) {
        Some(place) => Err((6, place as u64)),
        None => Ok(()),
    }
}

fn check_roles(input: &Input) -> Result<(), Refusal> {
    match input.roles.iter().position(|&role| role >= 100) {
        Some(at) => Err((16, at as u64 / 2)),
        None => Ok(()),
    }
}

/// Marks go from each id to its inner ids, highest first, so one pass is enough.
fn atoms_with_copies(input: &Input, count: usize, patterns: &Set) -> Set {
    let mut reached = EMPTY;
    for &id in input.inclusions {
        insert(&mut reached, usize::from(id));
    }
    for pair in input.questions.chunks_exact(2) {
        let right = usize::from(pair[1]);
        if !has(patterns, right) {
            insert(&mut reached, right);
        }
    }
    let mut atoms = EMPTY;
    for id in (0..count).rev() {
        if !has(&reached, id) {
            continue;
        }
        match input.row(id) {
            (1, _, _) => insert(&mut atoms, id),
            (2, _, inner) => {
                insert(&mut atoms, id);
                insert(&mut reached, inner);
            }
            (3, first, second) => {
                insert(&mut reached, first);
                insert(&mut reached, second);
            }
            _ => {}
        }
    }
    atoms
}

/// Slots of the table of rows seen so far: a power of two, over twice the rows.
const SLOTS: usize = 512;
const FREE: u8 = 255;

/// The lowest id that is built like each of these. Inner ids are replaced by their lowest twins,
/// so that rows of twins are equal; the first of equal rows is found in an open hash table. Ids
/// above the highest of the set cannot be the lowest twin of one.
fn lowest_twins(input: &Input, ids: &Set) -> Set {
    let end = (0..3).rev().find(|&block| ids[block] != 0);
    let end = end.map_or(0, |block| 64 * (block + 1) - ids[block].leading_zeros() as usize);
    let mut slots = [FREE; SLOTS];
    let mut keys = [0; 192];
    let mut lowest = [0; 192];
    for id in 0..end {
        let (kind, a, b) = input.row(id);
        let key = match kind {
            2 => key_of(2, a, usize::from(lowest[b])),
            3 => key_of(3, usize::from(lowest[a]), usize::from(lowest[b])),
            _ => key_of(kind, a, b),
        };
        keys[id] = key;
        let mut slot = (key.wrapping_mul(0x9e37_79b9_7f4a_7c15) >> 55) as usize;
        while slots[slot] != FREE && keys[usize::from(slots[slot])] != key {
            slot = (slot + 1) % SLOTS;
        }
        if slots[slot] == FREE {
            slots[slot] = id as u8;
        }
        lowest[id] = slots[slot];
    }
    let mut twins = EMPTY;
    each(*ids, |id| insert(&mut twins, usize::from(lowest[id])));
    twins
}

fn key_of(kind: u16, a: usize, b: usize) -> u64 {
    u64::from(kind) << 32 | (a as u64) << 16 | b as u64
}
