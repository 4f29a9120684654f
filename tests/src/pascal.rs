//! Pascal's triangle: entry i of row g is how many of the 2^g setups of g settings have exactly i on.

use std::iter;
use std::sync::LazyLock;

static TRIANGLE: LazyLock<Vec<Vec<u64>>> = LazyLock::new(|| {
    let rows = iter::successors(Some(vec![1]), |row| Some(next(row)));
    rows.take(64).collect()
});

/// Rows 0 to 63.
pub fn triangle() -> &'static [Vec<u64>] {
    &TRIANGLE
}

pub fn row(g: u64) -> &'static [u64] {
    &TRIANGLE[g as usize]
}

/// The row below: each entry is the sum of the two above it, of which the ends have one.
pub fn next(row: &[u64]) -> Vec<u64> {
    let left = [&[0], row].concat();
    let right = [row, &[0]].concat();
    left.iter()
        .zip(right)
        .map(|(left, right)| left + right)
        .collect()
}

/// What a row leaves of all setups.
pub fn rest(row: &[u64]) -> Vec<u64> {
    let all = &TRIANGLE[row.len() - 1];
    all.iter()
        .zip(row)
        .map(|(all, count)| all - count)
        .collect()
}
