//! Rank, unrank and span against the paper, against lists of the permitted setups and against one
//! another.

use setupbook_tests::call::{Answer, Call};
use setupbook_tests::comparison::{border_parts, random_part, Comparison};
use setupbook_tests::layout::bytes_of;
use setupbook_tests::tables::{self, TruthTable};

#[test]
fn ranks_and_spans_agree_with_the_paper() {
    let mut comparison = Comparison::of_run();
    comparison.run(&[
        ("all functions of up to 3 settings", all_small_functions),
        ("random functions of 4 to 9 settings", random_functions),
        ("random ranks and setups", random_numbers),
        ("ranks and setups about 2^62 and 2^63", great_numbers),
        ("k and j at the borders", part_borders),
        ("random k and j", random_parts),
        ("up to 65,535 records", wide),
    ]);
    assert!(comparison.tally.cases >= 150_000);
}

fn refusal_number(answer: Answer) -> Option<u64> {
    answer.refusal().map(|refusal| refusal.number)
}

/// Compares the table of a truth table; its permitted setups, in order, are the unranked ones.
fn compare_list(comparison: &mut Comparison, function: &TruthTable) -> Vec<u8> {
    let table = bytes_of(&tables::from_truth_table(function));
    let mut rank = 0;
    for (setup, permitted) in (0..).zip(function) {
        let ranked = comparison.compare_served(Call::Rank { setup }, &table);
        if *permitted {
            assert_eq!(ranked.value(), rank);
            let unranked = comparison.compare_served(Call::Unrank { rank }, &table);
            assert_eq!(unranked.value(), setup);
            rank += 1;
        } else {
            assert_eq!(refusal_number(ranked), Some(13));
        }
    }
    let past = comparison.compare_served(Call::Unrank { rank }, &table);
    assert_eq!(refusal_number(past), Some(14));
    let setup = function.len() as u64;
    let past = comparison.compare_served(Call::Rank { setup }, &table);
    assert_eq!(refusal_number(past), Some(12));
    table
}

/// Compares all parts of k: each starts where the one before ends, the last ends at C, and the
/// sizes differ by at most 1.
fn compare_parts(comparison: &mut Comparison, table: &[u8], k: u64) {
    let total = comparison.compare_served(Call::Count, table).value();
    let mut end = 0;
    let mut sizes = Vec::new();
    for j in 0..k {
        let start = comparison.compare_served(Call::SpanStart { k, j }, table);
        assert_eq!(start.value(), end);
        let size = comparison
            .compare_served(Call::SpanSize { k, j }, table)
            .value();
        end += size;
        sizes.push(size);
    }
    assert_eq!(end, total);
    assert!(sizes.iter().all(|&size| size - total / k <= 1));
}

fn all_small_functions(comparison: &mut Comparison) {
    for n in 0..=3 {
        for number in 0..1u64 << (1 << n) {
            let table = compare_list(comparison, &tables::numbered_truth_table(n, number));
            for k in 1..=9 {
                compare_parts(comparison, &table, k);
            }
        }
    }
}

fn random_functions(comparison: &mut Comparison) {
    for n in 4..=9 {
        for _ in 0..30 {
            let function = tables::random_truth_table(&mut comparison.rng, n);
            let table = compare_list(comparison, &function);
            let k = comparison.rng.between(1, 1 << n);
            compare_parts(comparison, &table, k);
        }
    }
}

/// Unranks and ranks the result again; the rank is below C.
fn there_and_back(comparison: &mut Comparison, table: &[u8], rank: u64) {
    let setup = comparison
        .compare_served(Call::Unrank { rank }, table)
        .value();
    assert_eq!(
        comparison
            .compare_served(Call::Rank { setup }, table)
            .value(),
        rank
    );
}

/// Ranks a setup and unranks the result, unless the setup is not permitted.
fn back_and_there(comparison: &mut Comparison, table: &[u8], setup: u64) {
    let ranked = comparison.compare_served(Call::Rank { setup }, table);
    if refusal_number(ranked).is_none() {
        let rank = ranked.value();
        let unranked = comparison.compare_served(Call::Unrank { rank }, table);
        assert_eq!(unranked.value(), setup);
    }
}

/// The first and last ranks, and `rounds` random ranks and setups.
fn compare_numbers(comparison: &mut Comparison, table: &[u8], rounds: u64) {
    let n = table[0] / 4;
    let count = comparison.compare_served(Call::Count, table).value();
    for rank in [count, count.saturating_add(1)] {
        let past = comparison.compare_served(Call::Unrank { rank }, table);
        assert_eq!(refusal_number(past), Some(14));
    }
    let mut ranks: Vec<u64> = (0..rounds)
        .map(|_| comparison.rng.below(count.max(1)))
        .collect();
    ranks.extend([0, count.saturating_sub(1)]);
    for rank in ranks.into_iter().filter(|&rank| rank < count) {
        there_and_back(comparison, table, rank);
    }
    for _ in 0..rounds {
        let setup = comparison.rng.below(1 << n);
        back_and_there(comparison, table, setup);
    }
}

fn random_numbers(comparison: &mut Comparison) {
    for _ in 0..1500 {
        let table = bytes_of(&tables::of_any_size(&mut comparison.rng));
        compare_numbers(comparison, &table, 8);
    }
}

/// A table and the one that permits the other setups.
fn with_opposite(words: &[u64]) -> [Vec<u8>; 2] {
    [bytes_of(words), bytes_of(&tables::turned_over(words))]
}

fn great_numbers(comparison: &mut Comparison) {
    let extreme = [tables::extreme(62), tables::extreme(63)].concat();
    let mut compared: Vec<Vec<u8>> = extreme.iter().map(|words| bytes_of(words)).collect();
    for n in [62, 63, 63, 63] {
        let words = tables::random_accepted(&mut comparison.rng, n, 200);
        compared.extend(with_opposite(&words));
    }
    let mut numbers = vec![0, 1, u64::MAX - 1, u64::MAX];
    for great in [1 << 31, 1 << 32, 1 << 61, 1 << 62, 3 << 61, 1 << 63] {
        numbers.extend([great - 1, great, great + 1]);
    }
    for table in compared {
        for &number in &numbers {
            comparison.compare_served(Call::Rank { setup: number }, &table);
            comparison.compare_served(Call::Unrank { rank: number }, &table);
        }
        compare_numbers(comparison, &table, 20);
    }
}

fn part_borders(comparison: &mut Comparison) {
    let mut compared = [0, 17, 63].map(tables::extreme).concat();
    compared.extend((0..4).map(|_| tables::of_any_size(&mut comparison.rng)));
    for table in compared.iter().map(|words| bytes_of(words)) {
        for (k, j) in border_parts() {
            comparison.compare_served(Call::SpanStart { k, j }, &table);
            comparison.compare_served(Call::SpanSize { k, j }, &table);
        }
    }
}

fn random_parts(comparison: &mut Comparison) {
    for _ in 0..1000 {
        let table = bytes_of(&tables::of_any_size(&mut comparison.rng));
        for _ in 0..8 {
            let (k, j) = random_part(&mut comparison.rng);
            comparison.compare_served(Call::SpanStart { k, j }, &table);
            comparison.compare_served(Call::SpanSize { k, j }, &table);
        }
    }
}

fn wide(comparison: &mut Comparison) {
    for words in tables::wide_ones(&mut comparison.rng) {
        for table in with_opposite(&words) {
            compare_numbers(comparison, &table, 20);
            compare_parts(comparison, &table, 5);
        }
    }
}
