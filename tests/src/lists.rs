//! Lists of numbers, as bytes.

use crate::layout::bytes_of;
use crate::rng::Rng;

/// The items, with up to seven spare bytes.
pub fn with_spare(rng: &mut Rng, items: &[u64]) -> Vec<u8> {
    let spare = rng.index(8);
    [bytes_of(items), rng.bytes(spare)].concat()
}

/// The items, with up to seven spare bytes: four times in five in order, and then one time in five
/// with another number in the place of one.
pub fn mostly_in_order(rng: &mut Rng, mut items: Vec<u64>, other: u64) -> Vec<u8> {
    if rng.chance(80) {
        items.sort();
    }
    if rng.chance(20) && !items.is_empty() {
        let at = rng.index(items.len());
        items[at] = other;
    }
    with_spare(rng, &items)
}
