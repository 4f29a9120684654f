//! Lengths and contents of work sheets and out memories, of every class.

use crate::call::Call;
use crate::layout::{fields, words_of};
use crate::rng::Rng;

/// The length that a call needs of its sheet. If N says more records than there are, it is for
/// those that there are.
pub fn needed(call: Call, table: &[u8]) -> usize {
    let node_count = match words_of(&table[..table.len().min(8)])[..] {
        [header] => fields(header).1.min(table.len() as u64 / 8),
        _ => 0,
    };
    8 * call.places(node_count) as usize
}

/// The lengths at which something may change.
pub fn border_lengths(needed: usize) -> Vec<usize> {
    let mut lengths = vec![0, 1, 7, needed - 8, needed - 1];
    lengths.extend(needed..=needed + 9);
    lengths.push(needed + 4096 + 3);
    lengths
}

/// How long a sheet is, beside what its call needs.
#[derive(Clone, Copy, Debug, PartialEq, Eq, PartialOrd, Ord)]
pub enum Length {
    Short,
    Just,
    SpareBytes,
    MorePlaces,
}

/// The length of a sheet without a zero byte, in which every byte that is blanked or left shows.
pub fn filled_length(sheet: &[u8], needed: usize) -> Option<Length> {
    if sheet.is_empty() || sheet.contains(&0) {
        return None;
    }
    Some(match sheet.len().checked_sub(needed) {
        None => Length::Short,
        Some(0) => Length::Just,
        Some(1..=7) => Length::SpareBytes,
        Some(_) => Length::MorePlaces,
    })
}

/// A length of a random class; about two in three are long enough. A few bytes, if none is needed.
pub fn random_length(rng: &mut Rng, needed: usize) -> usize {
    match rng.below(16) {
        _ if needed == 0 => rng.index(20),
        0 => 0,
        1 => rng.between(1, 7) as usize,
        2 => needed - 1,
        3 => rng.index(needed),
        4 => needed - 8,
        5..=8 => needed,
        9..=12 => needed + rng.between(1, 7) as usize,
        13 => needed + rng.between(8, 64) as usize,
        _ => needed + rng.between(65, 2048) as usize,
    }
}

/// A length that is enough.
pub fn served_length(rng: &mut Rng, needed: usize) -> usize {
    needed + rng.pick(&[0, 0, 1, 3, 7, 8, 50])
}

/// Seven times in eight without a zero byte, otherwise zeros.
pub fn random_content(rng: &mut Rng, len: usize) -> Vec<u8> {
    match rng.below(8) {
        0 => vec![0; len],
        1..=2 => vec![0xFF; len],
        _ => filling(rng, len),
    }
}

/// Random bytes, none of them zero.
pub fn filling(rng: &mut Rng, len: usize) -> Vec<u8> {
    let bytes = rng.bytes(len);
    bytes.into_iter().map(|byte| byte.max(1)).collect()
}
