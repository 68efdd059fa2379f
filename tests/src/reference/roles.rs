//! Roles above roles (02, A.6): what a role counts as, by a search from role to role along the pairs.

use std::collections::BTreeSet;

use crate::limits::MAX_ROLE;
use crate::tables::Tables;

/// The roles that every link of `role` is a link of, itself among them.
pub fn wider(tables: &Tables, role: u16) -> BTreeSet<u16> {
    let mut seen = BTreeSet::from([role]);
    let mut open = vec![role];
    while let Some(narrow) = open.pop() {
        for (_, wide) in tables.role_pairs().filter(|pair| pair.0 == narrow) {
            if seen.insert(wide) {
                open.push(wide);
            }
        }
    }
    seen
}

pub fn counts_as(tables: &Tables, narrow: u16, wide: u16) -> bool {
    narrow == wide || wider(tables, narrow).contains(&wide)
}

/// For each role of accepted tables the roles that it counts as, role s as bit s.
pub fn wider_bits(tables: &Tables) -> Vec<u128> {
    let bits = |role| wider(tables, role).into_iter().fold(0, |set, wide| set | 1 << wide);
    (0..=MAX_ROLE).map(bits).collect()
}
