//! Nested existentials: the largest interpretations that are shown, and a given one where a walk
//! has the most to look at.

use crate::limits::{MAX_CONCEPTS, MAX_ELEMENTS, MAX_ROLE_PAIRS};
use crate::random::Random;
use crate::tables::{Stock, Tables};

/// The name of the tables below, and the lowest of their roles.
pub const NAME: u16 = 999;
pub const FIRST_ROLE: u16 = 67;

/// Tables whose shown interpretation is large, a pair that fails, and who bears the name. All
/// existentials are equivalent and of a role that counts as 33, so that each element is linked to
/// `targets` elements by each of these roles.
pub struct Large {
    pub tables: Tables,
    pub pair: (u16, u16),
    pub bearer: u16,
    pub targets: u16,
}

impl Large {
    /// 190 existentials over top, which is below the first of them and so below all; the name is
    /// the last concept.
    pub fn over_top() -> Large {
        let tables = equivalent(&[[0, 0, 0]], &[[0, 1]], &[[1, NAME, 0]]);
        Large { tables, pair: (0, 191), bearer: 191, targets: 190 }
    }

    /// 191 over a name, which is below the first, and the second is below the first. No shown
    /// interpretation has more rows: fewer existentials have fewer links, and each pair of them
    /// that fails costs 33, which names cannot make up for.
    pub fn over_name() -> Large {
        let tables = equivalent(&[[1, NAME, 0]], &[[0, 1], [2, 1]], &[]);
        Large { tables, pair: (1, 0), bearer: 0, targets: 191 }
    }

    /// All rows, rising.
    pub fn rows(&self) -> Vec<u16> {
        let mut rows = vec![0, self.bearer, NAME, 0];
        let roles = FIRST_ROLE..=FIRST_ROLE + MAX_ROLE_PAIRS as u16;
        let linked =
            (0..MAX_CONCEPTS as u16).flat_map(|x| roles.clone().map(move |role| (x, role)));
        for (x, role) in linked {
            rows.extend((0..self.targets).flat_map(|y| [1, x, role, y]));
        }
        rows
    }
}

/// 192 concepts: existentials of the one before, between the first and the last; a chain of roles.
fn equivalent(first: &[[u16; 3]], inclusions: &[[u16; 2]], last: &[[u16; 3]]) -> Tables {
    let mut rows = first.to_vec();
    while rows.len() + last.len() < MAX_CONCEPTS {
        rows.push([2, FIRST_ROLE, rows.len() as u16 - 1]);
    }
    rows.extend(last);
    let roles = FIRST_ROLE..FIRST_ROLE + MAX_ROLE_PAIRS as u16;
    let pairs: Vec<[u16; 2]> = roles.map(|role| [role, role + 1]).collect();
    Tables::new(&rows, inclusions, &[], 0).with_roles(&pairs)
}

/// Top, a name (1), and so many existentials above it, each of the one before.
pub fn tower(height: u16) -> Tables {
    let mut rows = vec![[0, 0, 0], [1, NAME, 0]];
    rows.extend((1..=height).map(|inner| [2, FIRST_ROLE, inner]));
    Tables::new(&rows, &[], &[], 0)
}

/// The deepest walk: 128 existentials (64 to 191) over a variable (63), which its question makes
/// choose the last of 62 others over a name.
pub fn tower_over_choice() -> Tables {
    let mut rows = vec![[1, NAME, 0]];
    rows.extend((0..62).map(|inner| [2, FIRST_ROLE, inner]));
    rows.push([4, 0, 0]);
    rows.extend((63..191).map(|inner| [2, FIRST_ROLE, inner]));
    Tables::new(&rows, &[], &[[63, 62]], 1)
}

/// The element of a crowd that is linked to none.
pub const APART: u16 = 7;

/// 192 elements linked to one another at random by so many rows, but for one that is apart; one of
/// them bears the name. Where that is the one apart, no element is of any existential of a tower,
/// and a walk has looked at everything before it knows.
pub fn crowd(random: &mut Random, links: usize, named: u16) -> Stock {
    let size = MAX_ELEMENTS as u16;
    let mut rows: Vec<[u16; 4]> =
        (0..size).flat_map(|x| (0..size).map(move |y| [1, x, FIRST_ROLE, y])).collect();
    rows.retain(|row| row[1] != APART && row[3] != APART);
    random.shuffle(&mut rows);
    rows.truncate(links);
    rows.push([0, named, NAME, 0]);
    Stock::new(size, &rows)
}
