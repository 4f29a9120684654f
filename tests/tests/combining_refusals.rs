//! Two tables made into one: what is refused, and what is left in the sheets, the pair sheet and the
//! out memory, against the paper.

use setupbook_tests::call::{Answer, Refusal};
use setupbook_tests::combination::{Combination, Memories, Operation};
use setupbook_tests::combined::Reading;
use setupbook_tests::combining::on_top;
use setupbook_tests::comparison::Comparison;
use setupbook_tests::damage;
use setupbook_tests::layout::bytes_of;
use setupbook_tests::rng::Rng;
use setupbook_tests::sheets;
use setupbook_tests::tables;
use setupbook_tests::tally::TWO_TABLES;

#[test]
fn refusals_of_two_agree_with_the_paper() {
    let mut comparison = Comparison::of_run();
    comparison.run(&[
        ("unequal numbers of settings", unequal),
        ("one aimed fault in one table", one_fault),
        ("records that nothing names", unnamed),
        ("any faults in one table", faults_of_one),
        ("faults in both tables", faults_of_both),
        ("raw words and bytes", raw_tables),
        ("table A, pair sheets of every length", pair_sheets_of_a),
        ("pair sheets about what is needed", pair_sheets),
        ("out memories of every length", every_out),
        ("sheets of every length", every_sheet),
        ("one call after another in the same memories", same_memories),
        ("results of 65,536 records", one_too_many),
        ("faults beside more than 65,535 records", faults_beside_16),
        ("a table of 65,536 records", too_many_records),
    ]);
    let tally = &comparison.tally;
    tally.assert_every_answer(&TWO_TABLES);
    tally.assert_every_pair(&TWO_TABLES);
    tally.assert_every_sheet(&TWO_TABLES);
    tally.assert_calls(&TWO_TABLES, 40_000);
}

fn refused(number: u64) -> Answer {
    refused_table(0, number)
}

fn refused_table(table: u64, number: u64) -> Answer {
    let refusal = Refusal::new(number, 0);
    Answer::refused(Refusal { table, ..refusal })
}

/// The n of a header; 3 if there is no header.
fn n_of(table: &[u8]) -> u64 {
    table.first().map_or(3, |byte| u64::from(byte / 4))
}

/// An accepted table of few records.
fn small_table(comparison: &mut Comparison, n: u64) -> Vec<u8> {
    bytes_of(&tables::of_few_records(&mut comparison.rng, n))
}

/// Two accepted tables of few records with the same n.
fn two_tables(comparison: &mut Comparison) -> [Vec<u8>; 2] {
    tables::two_of_few_records(&mut comparison.rng).map(|words| bytes_of(&words))
}

/// 19, with memories of any length and with none for the result, and behind a refusal of a table.
fn unequal(comparison: &mut Comparison) {
    for _ in 0..1_000 {
        let n = comparison.rng.below(63);
        let greater = comparison.rng.between(n + 1, 63);
        let [first, second] = [n, greater].map(|n| small_table(comparison, n));
        for (first, second) in [(&first, &second), (&second, &first)] {
            for reading in &Reading::all(first, Some(second)) {
                comparison.combine_any(reading);
                let mut lengths = reading.needed();
                (lengths.pairs, lengths.out) = (0, 0);
                let outcome = comparison.combine_lengths(reading, lengths);
                assert_eq!(outcome.answer, refused(19));
            }
        }
    }
}

/// A table as the first one and as the second one, beside an accepted one of the same n, with sheets
/// that are long enough.
fn compare_beside(comparison: &mut Comparison, table: &[u8]) {
    let other = small_table(comparison, n_of(table));
    for (first, second) in [(table, &other[..]), (&other[..], table)] {
        for reading in &Reading::all(first, Some(second)) {
            let rng = &mut comparison.rng;
            let needed = reading.needed();
            let lengths = Memories {
                sheets: needed.sheets.map(|len| sheets::served_length(rng, len)),
                pairs: sheets::random_length(rng, needed.pairs),
                out: sheets::random_length(rng, needed.out),
            };
            comparison.combine_lengths(reading, lengths);
        }
    }
}

/// A table with a fault aimed at a refusal, and one without if that is 10.
fn aimed(rng: &mut Rng, refusal: u64) -> Vec<u8> {
    let n = tables::any_settings(rng);
    let mut words = tables::random_accepted(rng, n, 12);
    if refusal < 10 {
        damage::aim(rng, &mut words, refusal);
    }
    bytes_of(&words)
}

fn one_fault(comparison: &mut Comparison) {
    for refusal in 1..=9 {
        for _ in 0..600 {
            let table = aimed(&mut comparison.rng, refusal);
            compare_beside(comparison, &table);
        }
    }
}

/// Names left to chance, so that 9 is met often.
fn unnamed(comparison: &mut Comparison) {
    for _ in 0..1_000 {
        let rng = &mut comparison.rng;
        let n = rng.between(2, 63);
        let plan = tables::random_plan(rng, n, 12);
        let table = bytes_of(&tables::from_plan(rng, n, &plan, false));
        compare_beside(comparison, &table);
    }
}

/// A damaged table as the first one and as the second one, beside an accepted one of the same n.
fn faults_of_one(comparison: &mut Comparison) {
    for _ in 0..8_000 {
        let table = damage::any_faults(&mut comparison.rng);
        let other = small_table(comparison, n_of(&table));
        for (first, second) in [(&table, &other), (&other, &table)] {
            for reading in &Reading::all(first, Some(second)) {
                comparison.combine_any(reading);
            }
        }
    }
}

/// Every refusal of the first table with every one of the second; the same faulty table twice.
fn faults_of_both(comparison: &mut Comparison) {
    for (one, other) in (1..=10).flat_map(|i| (1..=10).map(move |j| (i, j))) {
        for _ in 0..25 {
            let [first, second] = [one, other].map(|refusal| aimed(&mut comparison.rng, refusal));
            for reading in &Reading::all(&first, Some(&second)) {
                let mut lengths = reading.needed();
                for (len, refusal) in lengths.sheets.iter_mut().zip([one, other]) {
                    *len = match refusal {
                        10 => *len - 1,
                        _ => sheets::served_length(&mut comparison.rng, *len),
                    };
                }
                comparison.combine_lengths(reading, lengths);
            }
        }
    }
    for _ in 0..500 {
        let table = damage::any_faults(&mut comparison.rng);
        comparison.combine_all(&table, None);
    }
}

fn raw_tables(comparison: &mut Comparison) {
    for _ in 0..1_000 {
        let words = [(); 2].map(|()| damage::small_fields(&mut comparison.rng));
        comparison.combine_all(&bytes_of(&words[0]), Some(&bytes_of(&words[1])));
        let words = damage::random_words(&mut comparison.rng);
        let first = damage::damaged_bytes(&mut comparison.rng, &words);
        let len = comparison.rng.index(40);
        let second = comparison.rng.bytes(len);
        comparison.combine_all(&first, Some(&second));
        comparison.combine_all(&second, Some(&first));
    }
}

/// Six pairs need 192 bytes. Four places that are not complete, and spare bytes, count for nothing.
fn pair_sheets_of_a(comparison: &mut Comparison) {
    let table = bytes_of(&[
        0x0C00000060000006,
        0x0400000000000001,
        0x0800000040000003,
        0x0C00000080000000,
    ]);
    for second in [None, Some(&table[..])] {
        for reading in &Reading::all(&table, second) {
            for pairs in 0..=200 {
                let lengths = Memories {
                    pairs,
                    ..reading.needed()
                };
                for byte in [0xFF, 0x01] {
                    let before = lengths.map(|len| vec![byte; len]);
                    let answer = comparison.combine(reading, &before).answer;
                    assert_eq!(answer == refused(20), pairs < 192);
                    assert_eq!(answer.refusal().is_none(), pairs >= 192);
                }
            }
        }
    }
}

/// Lengths of a pair sheet: one byte, one place and one pair short of enough, enough and more, with
/// four places that are not complete.
fn pair_lengths(needed: usize) -> Vec<usize> {
    let mut lengths = vec![0, 1, 31, 32, needed - 32, needed - 8, needed - 1];
    lengths.extend(needed..=needed + 9);
    lengths.extend([16, 24, 31, 32, 63, 64, 4096 + 3].map(|more| needed + more));
    lengths
}

/// Each with an out memory that is long enough, and with one that is not.
fn pair_sheets(comparison: &mut Comparison) {
    for _ in 0..60 {
        let [first, second] = two_tables(comparison);
        for reading in &Reading::all(&first, Some(&second)) {
            let needed = reading.needed();
            for pairs in pair_lengths(needed.pairs) {
                for out in [needed.out, needed.out - 1] {
                    let lengths = Memories {
                        pairs,
                        out,
                        ..needed
                    };
                    let before = lengths.map(|len| sheets::filling(&mut comparison.rng, len));
                    let answer = comparison.combine(reading, &before).answer;
                    assert_eq!(answer == refused(20), pairs < needed.pairs);
                }
            }
        }
    }
}

fn every_out(comparison: &mut Comparison) {
    for _ in 0..100 {
        let [first, second] = two_tables(comparison);
        for reading in &Reading::all(&first, Some(&second)) {
            let needed = reading.needed();
            for out in sheets::border_lengths(needed.out) {
                let answer = comparison
                    .combine_lengths(reading, Memories { out, ..needed })
                    .answer;
                assert_eq!(answer == refused(11), out < needed.out);
            }
        }
    }
}

/// Each of the two sheets, with tables that pass and with tables that have a fault, most often of 9.
fn every_sheet(comparison: &mut Comparison) {
    for round in 0..80 {
        let rng = &mut comparison.rng;
        let n = rng.between(2, 12);
        let mut words = [(); 2].map(|()| tables::random_accepted(rng, n, 12));
        let refusal = rng.pick(&[9, 9, 9, 4, 6, 5, 7, 8]);
        if round % 4 < 2 {
            damage::aim(rng, &mut words[round % 4], refusal);
        }
        let [first, second] = words.map(|words| bytes_of(&words));
        for reading in &Reading::all(&first, Some(&second)) {
            let needed = reading.needed();
            for i in 0..2 {
                for len in sheets::border_lengths(needed.sheets[i]) {
                    let mut lengths = needed;
                    lengths.sheets[i] = len;
                    let before = lengths.map(|len| sheets::filling(&mut comparison.rng, len));
                    comparison.combine(reading, &before);
                }
            }
        }
    }
}

/// What one call leaves is what the next one finds.
fn same_memories(comparison: &mut Comparison) {
    for _ in 0..60 {
        let rng = &mut comparison.rng;
        let lengths = Memories {
            sheets: [8 * 31 + 5; 2],
            pairs: 32 * rng.between(4, 400) as usize + rng.index(32),
            out: rng.index(2_000),
        };
        let mut memories = lengths.map(|len| sheets::filling(rng, len));
        for round in 0..8 {
            let [first, mut second] = two_tables(comparison);
            if round % 4 == 3 {
                second = damage::any_faults(&mut comparison.rng);
            }
            for reading in &Reading::all(&first, Some(&second)) {
                memories = comparison.combine(reading, &memories).memories;
            }
        }
    }
}

const MOST: usize = 8 * 65_536;

/// 16, unless 10 or 20 comes first, with an out memory of any length.
fn one_too_many(comparison: &mut Comparison) {
    for (operation, more) in Operation::ALL.into_iter().zip([1, 23, 9]) {
        let wide = bytes_of(&tables::wide_below(&mut comparison.rng, 65_536 - more));
        let top = on_top(operation, more as u64);
        let reading = Reading::new(Combination {
            operation,
            first: &wide,
            second: Some(&top),
        });
        let needed = reading.needed();
        assert_eq!(needed.out, MOST + 8);
        for (spare, pairs, out, number) in [
            (0, needed.pairs, MOST + 8, 16),
            (3, needed.pairs + 3, MOST, 16),
            (40, 2 * needed.pairs, 0, 16),
            (0, needed.pairs - 1, MOST + 8, 20),
            (0, 0, 0, 20),
        ] {
            let lengths = Memories {
                sheets: needed.sheets.map(|len| len + spare),
                pairs,
                out,
            };
            let before = lengths.map(|len| sheets::filling(&mut comparison.rng, len));
            let answer = comparison.combine(&reading, &before).answer;
            assert_eq!(answer, refused(number));
        }
        for table in [1, 2] {
            let mut lengths = Memories { pairs: 0, ..needed };
            lengths.sheets[table as usize - 1] -= 1;
            let answer = comparison.combine_lengths(&reading, lengths).answer;
            assert_eq!(answer, refused_table(table, 10));
        }
    }
}

/// Refusal 16 beside every refusal of a table that leaves it settled which setups are permitted. The
/// fault is in a short table, which puts records on top of those of a long one.
fn faults_beside_16(comparison: &mut Comparison) {
    let wide = bytes_of(&tables::wide_below(&mut comparison.rng, 65_530));
    let chain = tables::with_settings_below(&tables::chain(10, true, 0), 45);
    let chain = tables::with_settings_above(chain, 8);
    for refusal in [1, 3, 5, 7, 8, 9] {
        let mut words = chain.clone();
        damage::fault_on_top(&mut words, refusal);
        let mut short = bytes_of(&words);
        if refusal == 1 {
            short.push(0);
        }
        for (table, first, second) in [(1, &short, &wide), (2, &wide, &short)] {
            for reading in &Reading::all(first, Some(second)) {
                let mut lengths = reading.needed();
                assert!(lengths.out > MOST);
                (lengths.pairs, lengths.out) = (100, 100);
                let answer = comparison.combine_lengths(reading, lengths).answer;
                let found = answer.refusal().unwrap();
                assert_eq!((found.table, found.number), (table, refusal));
            }
        }
    }
}

/// Refusal 2 beside 20, and beside 16 or 11: with the other table a constant the result is the long
/// table, its opposite, or a constant.
fn too_many_records(comparison: &mut Comparison) {
    let wide = bytes_of(&tables::wide(&mut comparison.rng, 40, 65_536, 40_000));
    for permitted in [false, true] {
        let constant = bytes_of(&tables::constant(40, permitted));
        for (table, first, second) in [(1, &wide, &constant), (2, &constant, &wide)] {
            for reading in &Reading::all(first, Some(second)) {
                let lengths = reading.needed().map(|len| len.min(MOST) - 1);
                let sheets = lengths.sheets.map(|len| len + 9);
                let answer = comparison
                    .combine_lengths(reading, Memories { sheets, ..lengths })
                    .answer;
                assert_eq!(answer, refused_table(table, 2));
            }
        }
    }
}
