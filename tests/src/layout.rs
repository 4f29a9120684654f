//! Words, bytes and the fields of a word, as the paper's table layout sets them. A header and a
//! record have the same three fields of 6, 29 and 29 bits.

pub const EDGE_BITS: u64 = (1 << 29) - 1;

/// A word from its three fields.
pub fn word(first: u64, second: u64, third: u64) -> u64 {
    (first << 58) | (second << 29) | third
}

/// The three fields of a word: n, N, root edge; or height, then-edge, else-edge.
pub fn fields(word: u64) -> (u64, u64, u64) {
    (word >> 58, (word >> 29) & EDGE_BITS, word & EDGE_BITS)
}

/// The n of a table, whatever its length is.
pub fn settings(table: &[u8]) -> u64 {
    table.first().map_or(0, |byte| byte / 4).into()
}

/// The bytes of a row of words, most significant first.
pub fn bytes_of(words: &[u64]) -> Vec<u8> {
    words.iter().flat_map(|word| word.to_be_bytes()).collect()
}

/// The whole words at the front of a byte row.
pub fn words_of(bytes: &[u8]) -> Vec<u64> {
    bytes
        .chunks_exact(8)
        .map(|chunk| u64::from_be_bytes(chunk.try_into().unwrap()))
        .collect()
}
