//! Raw bytes as tables: of any length and content, and headers that claim the true length so that
//! the rules of the records are reached.

use crate::layout::{bytes_of, fields, word};
use crate::loosening::{loosened, MOST};
use crate::rng::Rng;
use crate::tables;

/// The longest table: two records more than a table may have.
pub const LONGEST: usize = 8 * 65_538;

/// Bytes that are of use as fields: small heights, small edges, and all bits set.
const LIKELY: [u8; 16] = [
    0, 0, 0, 1, 2, 3, 4, 8, 0x0C, 0x10, 0x20, 0x40, 0x80, 0xC0, 0xFC, 0xFF,
];

pub struct Source {
    /// Accepted tables, of which some bytes are changed.
    accepted: Vec<Vec<u8>>,
    /// Accepted tables with few records, so that two of them have few pairs.
    small: Vec<Vec<u8>>,
    /// Loose tables.
    loose: Vec<Vec<u8>>,
    /// One whose parts can have more than 65,535 records.
    wide: Vec<u8>,
    /// A loose one of up to 65,535 records.
    wide_loose: Vec<u8>,
    /// Tables that make more than 65,535 records of it, with few pairs.
    chains: [Vec<u8>; 2],
}

impl Source {
    pub fn new(rng: &mut Rng) -> Source {
        let accepted = (0..500).map(|_| bytes_of(&tables::of_any_size(rng)));
        let accepted = accepted.collect();
        let wide = bytes_of(&tables::wide_below(rng, 65_530));
        let small = (0..500).map(|_| {
            let n = tables::any_settings(rng);
            bytes_of(&tables::of_few_records(rng, n))
        });
        let small = small.collect();
        let loose = (0..500).map(|_| {
            let words = tables::of_any_size(rng);
            let more = rng.pick(&[2, 10, 100]);
            bytes_of(&loosened(rng, &words, more))
        });
        let loose = loose.collect();
        let wide_loose = tables::wide(rng, 63, 50_000, 2_000);
        Source {
            accepted,
            small,
            loose,
            wide,
            wide_loose: bytes_of(&loosened(rng, &wide_loose, MOST)),
            chains: [true, false].map(|only_one| bytes_of(&tables::chain(63, only_one, 0))),
        }
    }

    /// A table, and whether it is raw bytes. One in eight is not, but an accepted one with up to
    /// three bytes changed.
    pub fn table(&self, rng: &mut Rng) -> (Vec<u8>, bool) {
        raw_or_changed(rng, &self.wide, &self.accepted, 8)
    }

    /// A loose table, and whether it is raw bytes, as every other one is. The others are loose ones
    /// with up to three bytes changed.
    pub fn loose_table(&self, rng: &mut Rng) -> (Vec<u8>, bool) {
        raw_or_changed(rng, &self.wide_loose, &self.loose, 2)
    }

    /// Two tables, each with whether it is raw bytes, as every other one is. The others are accepted
    /// ones with up to three bytes changed. Three times in four both have the same n.
    pub fn two_tables(&self, rng: &mut Rng) -> [(Vec<u8>, bool); 2] {
        if rng.below(20_000) == 0 {
            let chain = rng.pick(&self.chains.each_ref());
            let mut two = [&self.wide, chain].map(|table| (changed(rng, table.clone()), false));
            rng.shuffle(&mut two);
            return two;
        }
        let [first, mut second] = [(); 2].map(|()| match rng.below(2) {
            0 => (raw(rng), true),
            _ => {
                let table = self.small[rng.index(self.small.len())].clone();
                (changed(rng, table), false)
            }
        });
        if rng.below(8) == 0 {
            second = (changed(rng, first.0.clone()), first.1);
        }
        let mut two = [first, second];
        if rng.chance(75) {
            agree(&mut two);
        }
        two
    }
}

/// The greater n in both headers.
fn agree(two: &mut [(Vec<u8>, bool); 2]) {
    let first_byte = |(table, _): &(Vec<u8>, bool)| table.first().copied();
    let n = two.iter().filter_map(first_byte).max().unwrap_or(0) / 4;
    for byte in two.iter_mut().filter_map(|(table, _)| table.first_mut()) {
        *byte = 4 * n + *byte % 4;
    }
}

fn raw(rng: &mut Rng) -> Vec<u8> {
    let mut table = vec![0; length(rng)];
    fill(rng, &mut table);
    if rng.chance(60) {
        sort_records(&mut table);
    }
    if table.len() >= 8 && rng.chance(90) {
        claim_length(rng, &mut table);
    }
    table
}

/// A length: most are short, and most of the others are of whole words.
fn length(rng: &mut Rng) -> usize {
    let words = match rng.below(4096) {
        0 => rng.between(60_000, 65_538),
        1..=3 => rng.between(1, 3_000),
        4..=400 => rng.between(1, 64),
        401..=1600 => rng.between(1, 9),
        _ => rng.between(1, 4),
    };
    let len = 8 * words as usize;
    match rng.below(12) {
        0 => rng.index(17),
        1 => len - rng.between(1, 8) as usize,
        2 if len < LONGEST => len + rng.between(1, 7) as usize,
        _ => len,
    }
}

/// Content of one of six kinds.
fn fill(rng: &mut Rng, bytes: &mut [u8]) {
    match rng.below(8) {
        0 => bytes.copy_from_slice(&rng.bytes(bytes.len())),
        1 => few_values(rng, bytes),
        2 => runs(rng, bytes),
        3 => mostly_zero(rng, bytes),
        4 => repeated_word(rng, bytes),
        _ => three_bytes_a_word(rng, bytes),
    }
}

/// At most four different bytes.
fn few_values(rng: &mut Rng, bytes: &mut [u8]) {
    let mut values = [0; 4];
    for value in &mut values {
        *value = if rng.chance(70) {
            rng.pick(&LIKELY)
        } else {
            rng.word() as u8
        };
    }
    bytes.fill_with(|| rng.pick(&values));
}

/// Runs of one byte, which is zero in every other run.
fn runs(rng: &mut Rng, bytes: &mut [u8]) {
    let mut start = 0;
    let mut zero = rng.chance(50);
    while start < bytes.len() {
        let len = 1 + rng.index(12);
        let end = bytes.len().min(start + len);
        let value = if zero { 0 } else { rng.word() as u8 };
        bytes[start..end].fill(value);
        (start, zero) = (end, !zero);
    }
}

/// Zero but for a few bytes.
fn mostly_zero(rng: &mut Rng, bytes: &mut [u8]) {
    if bytes.is_empty() {
        return;
    }
    for _ in 0..rng.below(8) {
        bytes[rng.index(bytes.len())] = rng.pick(&LIKELY);
    }
}

/// One word over and over, with a few bytes changed.
fn repeated_word(rng: &mut Rng, bytes: &mut [u8]) {
    let mut word = [0; 8];
    fill_word(rng, &mut word);
    for chunk in bytes.chunks_mut(8) {
        chunk.copy_from_slice(&word[..chunk.len()]);
    }
    if !bytes.is_empty() {
        for _ in 0..rng.below(4) {
            bytes[rng.index(bytes.len())] = rng.word() as u8;
        }
    }
}

/// Words that are zero but for the bytes with the lowest bits of the height and the two edges.
fn three_bytes_a_word(rng: &mut Rng, bytes: &mut [u8]) {
    for chunk in bytes.chunks_exact_mut(8) {
        fill_word(rng, chunk);
    }
}

fn fill_word(rng: &mut Rng, word: &mut [u8]) {
    let height = if rng.chance(5) { 0 } else { rng.between(1, 4) };
    word[0] = 4 * height as u8;
    word[4] = if rng.chance(5) {
        0x20
    } else {
        rng.pick(&[0, 0, 0x40, 0x80])
    };
    word[7] = rng.pick(&[0, 1, 1, 2, 3, 4, 5]);
}

/// The whole words after the first, in their order.
fn sort_records(bytes: &mut [u8]) {
    if let Some(records) = bytes.get_mut(8..) {
        let (words, _) = records.as_chunks_mut::<8>();
        words.sort();
    }
}

/// A header whose N is that of the length, mostly with a root edge that leads to node N.
fn claim_length(rng: &mut Rng, bytes: &mut [u8]) {
    let (first, rest) = bytes.split_at_mut(8);
    let (n, _, root) = fields(u64::from_be_bytes((&*first).try_into().unwrap()));
    let node_count = rest.len() as u64 / 8;
    let n = match rng.below(4) {
        0 => n,
        1 => 63,
        2 => rng.below(4),
        _ => rng.between(4, 9),
    };
    let root = if rng.chance(95) {
        2 * node_count + rng.below(2)
    } else {
        root
    };
    first.copy_from_slice(&word(n, node_count, root).to_be_bytes());
}

/// Raw bytes, or one time in `one_in` one of some tables, with up to three bytes changed; rarely it is
/// the wide one. And whether it is raw bytes.
fn raw_or_changed(rng: &mut Rng, wide: &[u8], some: &[Vec<u8>], one_in: u64) -> (Vec<u8>, bool) {
    if rng.below(20_000) == 0 {
        (changed(rng, wide.to_vec()), false)
    } else if rng.below(one_in) == 0 {
        let table = some[rng.index(some.len())].clone();
        (changed(rng, table), false)
    } else {
        (raw(rng), true)
    }
}

/// Up to three bytes changed, or a length that does not fit.
fn changed(rng: &mut Rng, mut table: Vec<u8>) -> Vec<u8> {
    if table.is_empty() {
        return table;
    }
    for _ in 0..rng.below(8).saturating_sub(4) {
        let at = rng.index(table.len());
        table[at] = if rng.chance(50) {
            rng.pick(&LIKELY)
        } else {
            rng.word() as u8
        };
    }
    match rng.below(16) {
        0 => table.truncate(rng.index(table.len() + 1)),
        1 => table.extend(rng.bytes(8)),
        _ => {}
    }
    table
}
