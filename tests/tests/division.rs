//! Divisions: all parts of a table are written, in any order and some of them again, into the same
//! sheet and out memory and into others, and read back. Together they are the table.

use setupbook_tests::call::Call;
use setupbook_tests::comparison::{front, Comparison};
use setupbook_tests::layout::bytes_of;
use setupbook_tests::library::Lent;
use setupbook_tests::rng::Rng;
use setupbook_tests::sheets;
use setupbook_tests::tables;

#[test]
fn parts_are_the_whole() {
    let mut comparison = Comparison::of_run();
    comparison.run(&[
        ("all functions of up to 3 settings", all_small_functions),
        ("random functions of 4 to 8 settings", random_functions),
        ("random accepted tables", accepted),
        ("many parts", many_parts),
        ("30,000 records", wide),
    ]);
    assert!(comparison.tally.answered("part-write", 0) >= 8_000);
    for refusal in [10, 11, 15] {
        assert!(comparison.tally.answered("part-write", refusal) >= 300);
    }
    assert!(comparison.tally.empty_between >= 100);
}

/// A table and its parts, as they were written.
struct Division<'a> {
    comparison: &'a mut Comparison,
    table: Vec<u8>,
    parts: Vec<Vec<u8>>,
}

impl Division<'_> {
    /// Writes all parts into one memory, and some of them, and some that there are not, into that
    /// one or into another, which may be too short.
    fn write(comparison: &mut Comparison, table: Vec<u8>, k: u64) -> Division<'_> {
        let sheet_len = sheets::needed(Call::PartWrite { k, j: 0 }, &table);
        let out_len = table.len() + 1000; // for 125 new records
        let rng = &mut comparison.rng;
        let mut calls: Vec<(u64, bool)> = (0..k).map(|j| (j, false)).collect();
        for _ in 0..2 + k / 2 {
            let j = rng.below(k + 1 + k / 8);
            calls.push((j, rng.chance(60)));
        }
        rng.shuffle(&mut calls);
        let other_lens = (
            rng.pick(&[sheet_len, sheet_len + 21, sheet_len - 1]),
            rng.index(table.len() + 9),
        );
        let mut one = lend(comparison, &table, (sheet_len, out_len));
        let mut other = lend(comparison, &table, other_lens);

        let mut parts: Vec<Option<Vec<u8>>> = vec![None; k as usize];
        for (j, elsewhere) in calls {
            let lent = if elsewhere { &mut other } else { &mut one };
            let outcome = comparison.compare_in(Call::PartWrite { k, j }, lent);
            if outcome.answer.refusal().is_none() {
                let part = front(&outcome).to_vec();
                let first = parts[j as usize].get_or_insert(part.clone());
                assert_eq!(*first, part, "part {j} written again");
            }
        }
        Division {
            comparison,
            table,
            parts: parts.into_iter().map(Option::unwrap).collect(),
        }
    }

    fn ask(&mut self, call: Call, table: &[u8]) -> u64 {
        self.comparison.compare_served(call, table).value()
    }

    /// The sizes are even, as the span answers them and add up to C; setup number r of a part is
    /// number start + r of the table, for all r or for some.
    fn check_numbers(&mut self, most: u64) {
        let (table, parts) = (self.table.clone(), self.parts.clone());
        let k = parts.len() as u64;
        let total = self.ask(Call::Count, &table);
        let mut start = 0;
        for (j, part) in (0..).zip(&parts) {
            let size = self.ask(Call::Count, part);
            assert!(size - total / k <= 1);
            assert_eq!(self.ask(Call::SpanStart { k, j }, &table), start);
            assert_eq!(self.ask(Call::SpanSize { k, j }, &table), size);
            for r in some_below(&mut self.comparison.rng, size, most) {
                let setup = self.ask(Call::Unrank { rank: r }, part);
                assert_eq!(self.ask(Call::Unrank { rank: start + r }, &table), setup);
            }
            start += size;
        }
        assert_eq!(start, total);
    }

    /// Every setup that the table permits is permitted by one part, and every other one by none:
    /// all setups or some.
    fn check_setups(&mut self, most: u64) {
        let (table, parts) = (self.table.clone(), self.parts.clone());
        for setup in some_below(&mut self.comparison.rng, 1 << (table[0] / 4), most) {
            let permitted = self.ask(Call::Test { setup }, &table);
            let by_parts: u64 = parts
                .iter()
                .map(|part| self.ask(Call::Test { setup }, part))
                .sum();
            assert_eq!(by_parts, permitted);
        }
    }
}

fn lend(comparison: &mut Comparison, table: &[u8], lens: (usize, usize)) -> Lent {
    let rng = &mut comparison.rng;
    let (sheet, out) = (sheets::filling(rng, lens.0), sheets::filling(rng, lens.1));
    comparison.lend(table, &sheet, &out)
}

/// All numbers below `limit`, if there are at most `most`; otherwise the first, the last and
/// `most` random ones.
fn some_below(rng: &mut Rng, limit: u64, most: u64) -> Vec<u64> {
    if limit <= most {
        return (0..limit).collect();
    }
    let random = (0..most).map(|_| rng.below(limit));
    [0, limit - 1].into_iter().chain(random).collect()
}

fn divide(comparison: &mut Comparison, words: &[u64], k: u64, most: u64) {
    let mut division = Division::write(comparison, bytes_of(words), k);
    division.check_numbers(most);
    division.check_setups(most);
}

fn all_small_functions(comparison: &mut Comparison) {
    for n in 0..=3 {
        for number in 0..1u64 << (1 << n) {
            let words = tables::from_truth_table(&tables::numbered_truth_table(n, number));
            let k = comparison.rng.between(1, 10);
            divide(comparison, &words, k, 8);
        }
    }
}

fn random_functions(comparison: &mut Comparison) {
    for n in 4..=8 {
        for _ in 0..12 {
            let function = tables::random_truth_table(&mut comparison.rng, n);
            let words = tables::from_truth_table(&function);
            let k = comparison.rng.between(2, 40);
            divide(comparison, &words, k, 32);
        }
    }
}

fn accepted(comparison: &mut Comparison) {
    for _ in 0..150 {
        let words = tables::of_any_size(&mut comparison.rng);
        let k = comparison.rng.between(2, 30);
        divide(comparison, &words, k, 4);
    }
}

fn many_parts(comparison: &mut Comparison) {
    for k in [256, 1_000, 1_500] {
        let words = tables::random_accepted(&mut comparison.rng, 40, 60);
        divide(comparison, &words, k, 2);
    }
}

fn wide(comparison: &mut Comparison) {
    let words = tables::wide(&mut comparison.rng, 50, 30_000, 2_000);
    divide(comparison, &words, 3, 5);
}
