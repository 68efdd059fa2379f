//! Roles above roles, as bits.

/// For each role the roles that it counts as, as bits: one pair at a time, whoever counts as its
/// narrow role counts from then on as what its wide role counts as. Nothing where there is no pair.
pub fn wider(roles: &[u16]) -> Vec<u128> {
    if roles.is_empty() {
        return Vec::new();
    }
    let mut wider: Vec<u128> = (0..100).map(|role| 1 << role).collect();
    for pair in roles.chunks_exact(2) {
        let above = wider[usize::from(pair[1])];
        for set in wider.iter_mut().filter(|set| **set >> pair[0] & 1 == 1) {
            *set |= above;
        }
    }
    wider
}

/// Calls `act` with the places of the ones, rising.
pub fn each_bit(mut bits: u128, mut act: impl FnMut(usize)) {
    while bits != 0 {
        act(bits.trailing_zeros() as usize);
        bits &= bits - 1;
    }
}
