//! How many settings two setups differ in, and the closest of some setups, found by trying them all.

pub fn distance(one: u64, other: u64) -> u64 {
    (one ^ other).count_ones().into()
}

/// The one of these setups that differs from the given one in the fewest settings; among equals the
/// smallest.
pub fn closest_of(setups: &[u64], given: u64) -> Option<u64> {
    let setups = setups.iter().copied();
    setups.min_by_key(|&setup| (distance(setup, given), setup))
}
