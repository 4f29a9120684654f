//! Two tables made into one: what is written. Joined, shared, and the first without the second,
//! against the paper, and of small tables against their truth tables.

use setupbook_tests::call::{Answer, Call, Refusal};
use setupbook_tests::combination::{Combination, Memories, Operation};
use setupbook_tests::combined::Reading;
use setupbook_tests::combining::on_top;
use setupbook_tests::comparison::Comparison;
use setupbook_tests::layout::bytes_of;
use setupbook_tests::paper;
use setupbook_tests::part;
use setupbook_tests::reading::Table;
use setupbook_tests::tables::{self, TruthTable};
use setupbook_tests::tally::TWO_TABLES;

#[test]
fn results_agree_with_the_paper() {
    let mut comparison = Comparison::of_run();
    comparison.run(&[
        ("all functions of up to 2 settings", all_small_functions),
        ("all functions of 3 settings with some", functions_of_three),
        ("random functions of 4 to 9 settings", random_functions),
        ("tables without records, one record a height", extremes),
        ("random accepted tables", accepted),
        ("a table with itself", itself),
        ("a table with its opposite", opposite),
        ("parts of one table", parts),
        ("all operations on results", results),
        ("thousands of records", thousands),
        ("results of 65,535 records", as_many_as_can_be),
        ("65,535 records with themselves", wide_itself),
    ]);
    comparison.tally.assert_calls(&TWO_TABLES, 20_000);
}

/// The three results of two truth tables, also against the tables made from their own truth tables.
fn compare_functions(comparison: &mut Comparison, first: &TruthTable, second: &TruthTable) {
    let [one, other] =
        [first, second].map(|function| bytes_of(&tables::from_truth_table(function)));
    for reading in &Reading::all(&one, Some(&other)) {
        let operation = reading.combination.operation;
        let permits = |(&first, &second)| operation.permits(first, second);
        let permitted = first.iter().zip(second).map(permits).collect();
        let outcome = comparison.combine_served(reading);
        let table = tables::from_truth_table(&permitted);
        assert_eq!(outcome.written(), bytes_of(&table));
        comparison.combine_any(reading);
    }
}

fn all_small_functions(comparison: &mut Comparison) {
    for n in 0..=2 {
        let functions = 1u64 << (1 << n);
        for (one, other) in (0..functions).flat_map(|i| (0..functions).map(move |j| (i, j))) {
            let [first, second] =
                [one, other].map(|number| tables::numbered_truth_table(n, number));
            compare_functions(comparison, &first, &second);
        }
    }
}

fn functions_of_three(comparison: &mut Comparison) {
    for number in 0..256 {
        let first = tables::numbered_truth_table(3, number);
        for _ in 0..24 {
            let second = tables::numbered_truth_table(3, comparison.rng.below(256));
            compare_functions(comparison, &first, &second);
        }
    }
}

fn random_functions(comparison: &mut Comparison) {
    for n in 4..=9 {
        for _ in 0..40 {
            let [first, second] =
                [(); 2].map(|()| tables::random_truth_table(&mut comparison.rng, n));
            compare_functions(comparison, &first, &second);
        }
    }
}

fn extremes(comparison: &mut Comparison) {
    for n in 0..=63 {
        let extreme: Vec<Vec<u8>> = tables::extreme(n)
            .iter()
            .map(|words| bytes_of(words))
            .collect();
        for first in &extreme {
            for second in &extreme {
                for reading in &Reading::all(first, Some(second)) {
                    comparison.combine_any(reading);
                }
            }
        }
    }
}

/// Two accepted tables of few records with the same n.
fn two_tables(comparison: &mut Comparison) -> [Vec<u8>; 2] {
    tables::two_of_few_records(&mut comparison.rng).map(|words| bytes_of(&words))
}

fn accepted(comparison: &mut Comparison) {
    for _ in 0..2_000 {
        let [first, second] = two_tables(comparison);
        comparison.combine_all(&first, Some(&second));
    }
    for _ in 0..60 {
        let n = comparison.rng.between(8, 63);
        let [first, second] =
            [120, 200].map(|most| tables::random_accepted(&mut comparison.rng, n, most));
        comparison.combine_all(&bytes_of(&first), Some(&bytes_of(&second)));
    }
}

/// The table of no setup, or of all.
fn constant_like(table: &[u8], permitted: bool) -> Vec<u8> {
    bytes_of(&tables::constant(u64::from(table[0] / 4), permitted))
}

/// In the same memory, and in another one.
fn itself(comparison: &mut Comparison) {
    for _ in 0..500 {
        let table = bytes_of(&tables::of_any_size(&mut comparison.rng));
        let nothing = constant_like(&table, false);
        for second in [None, Some(&table[..])] {
            for reading in &Reading::all(&table, second) {
                let outcome = comparison.combine_served(reading);
                let result = match reading.combination.operation {
                    Operation::Without => &nothing,
                    _ => &table,
                };
                assert_eq!(outcome.written(), result);
                comparison.combine_any(reading);
            }
        }
    }
}

fn opposite(comparison: &mut Comparison) {
    for _ in 0..500 {
        let words = tables::of_any_size(&mut comparison.rng);
        let [table, other] = [&words, &tables::turned_over(&words)].map(|words| bytes_of(words));
        for reading in &Reading::all(&table, Some(&other)) {
            let outcome = comparison.combine_served(reading);
            let result = match reading.combination.operation {
                Operation::Join => constant_like(&table, true),
                Operation::Share => constant_like(&table, false),
                Operation::Without => table.clone(),
            };
            assert_eq!(outcome.written(), result);
            comparison.combine_any(reading);
        }
    }
}

/// Parts `js` of k parts of a table.
fn parts_of(table: &[u8], k: u64, js: [u64; 2]) -> [Vec<u8>; 2] {
    let table = Table::read(table);
    let counts = table.counts();
    js.map(|j| {
        let (start, size) = paper::span(table.total(&counts), k, j);
        bytes_of(&part::of_ranks(&table, &counts, start..start + size))
    })
}

/// Halves share nothing, and joined they are the table; a part is taken out and joined again.
fn compare_parts(comparison: &mut Comparison, table: &[u8]) {
    let [low, high] = parts_of(table, 2, [0, 1]);
    let joined = comparison.written_combination(Operation::Join, &low, &high);
    assert_eq!(joined, table);
    let shared = comparison.written_combination(Operation::Share, &low, &high);
    assert_eq!(shared, constant_like(table, false));

    let k = comparison.rng.between(3, 1_000);
    let j = comparison.rng.below(k);
    let [part, _] = parts_of(table, k, [j, j]);
    let rest = comparison.written_combination(Operation::Without, table, &part);
    let whole = comparison.written_combination(Operation::Join, &part, &rest);
    assert_eq!(whole, table);
}

fn parts(comparison: &mut Comparison) {
    for _ in 0..200 {
        let words = tables::of_any_size(&mut comparison.rng);
        compare_parts(comparison, &bytes_of(&words));
    }
    for n in [20, 40, 63] {
        let words = tables::wide(&mut comparison.rng, n, 4_000, 600);
        compare_parts(comparison, &bytes_of(&words));
    }
}

/// Every operation on one table, over what has been written.
fn results(comparison: &mut Comparison) {
    for _ in 0..40 {
        let [first, second] = two_tables(comparison);
        for operation in Operation::ALL {
            let written = comparison.written_combination(operation, &first, &second);
            let answer = comparison.compare_served(Call::Check, &written);
            assert_eq!(answer.value() >> 32, u64::from(first[0] / 4));
            comparison.compare_all(&written);
        }
    }
}

/// Settings of their own for each table, so that pairs are few; a long table and a short one.
fn thousands(comparison: &mut Comparison) {
    for (above, records) in [(20, 4_000), (33, 4_000), (43, 18_000)] {
        let rng = &mut comparison.rng;
        let low = tables::wide(rng, 20, records, 8_000);
        let low = bytes_of(&tables::with_settings_above(low, above));
        let high = tables::wide(rng, above, records, 1_500);
        let high = bytes_of(&tables::with_settings_below(&high, 20));
        for (first, second) in [(&low, &high), (&high, &low)] {
            for reading in &Reading::all(first, Some(second)) {
                comparison.combine_any(reading);
            }
        }
        let short = tables::random_accepted(&mut comparison.rng, above + 20, 12);
        comparison.combine_all(&low, Some(&bytes_of(&short)));
    }
}

const MOST: usize = 8 * 65_536;

fn refused(number: u64) -> Answer {
    Answer::refused(Refusal::new(number, 0))
}

fn as_many_as_can_be(comparison: &mut Comparison) {
    for (operation, more) in Operation::ALL.into_iter().zip([1, 23, 9]) {
        let wide = bytes_of(&tables::wide_below(&mut comparison.rng, 65_535 - more));
        let top = on_top(operation, more as u64);
        let reading = Reading::new(Combination {
            operation,
            first: &wide,
            second: Some(&top),
        });
        let needed = reading.needed();
        assert_eq!(needed.out, MOST);
        for (out, answer) in [
            (MOST, Answer::result(MOST as u64)),
            (MOST + 9, Answer::result(MOST as u64)),
            (MOST - 1, refused(11)),
        ] {
            let pairs = 2 * needed.pairs;
            let lengths = Memories {
                pairs,
                out,
                ..needed
            };
            let found = comparison.combine_lengths(&reading, lengths);
            assert_eq!(found.answer, answer);
        }
    }
}

fn wide_itself(comparison: &mut Comparison) {
    let words = tables::wide(&mut comparison.rng, 63, 65_535, 2_000);
    let table = bytes_of(&words);
    for reading in &Reading::all(&table, None) {
        let needed = reading.needed();
        let pairs = 2 * needed.pairs;
        let outcome = comparison.combine_lengths(reading, Memories { pairs, ..needed });
        let result = match reading.combination.operation {
            Operation::Without => constant_like(&table, false),
            _ => table.clone(),
        };
        assert!(outcome.written() == result);
    }
}
