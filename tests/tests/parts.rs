//! Part-write against the paper: answer, sheet and every byte of the out memory.

use setupbook_tests::call::{Answer, Call, Refusal};
use setupbook_tests::comparison::{border_parts, random_part, Comparison};
use setupbook_tests::layout::{bytes_of, fields};
use setupbook_tests::paper;
use setupbook_tests::sheets;
use setupbook_tests::tables::{self, TruthTable};

#[test]
fn parts_agree_with_the_paper() {
    let mut comparison = Comparison::of_run();
    comparison.run(&[
        ("all functions of up to 3 settings", all_small_functions),
        ("random functions of 4 to 8 settings", random_functions),
        ("random accepted tables", accepted),
        ("k and j at the borders", part_borders),
        ("out memories of every length", every_out),
        ("sheets of every length", every_sheet),
        ("as many new records as there can be", many_new_records),
        ("thousands of records", thousands),
        ("one part is the table", one_part),
        ("65,535 records and one more", about_the_limit),
        ("65,535 records, of them 124 new", most_new_records),
    ]);
    assert!(comparison.tally.cases >= 60_000);
    assert!(comparison.tally.answered("part-write", 11) >= 4_000);
    assert!(comparison.tally.answered("part-write", 16) >= 20);
    assert!(comparison.tally.empty_between >= 1_000);
}

/// Compares all parts of k with the tables made from their own truth tables.
fn compare_function(comparison: &mut Comparison, function: &TruthTable, k: u64) {
    let table = bytes_of(&tables::from_truth_table(function));
    let total = function.iter().filter(|permitted| **permitted).count() as u64;
    let mut start = 0;
    for j in 0..k {
        let end = (j + 1) * total / k;
        let kept = tables::with_ranks(function, start..end);
        let part = comparison.written_part(&table, k, j);
        assert_eq!(part, bytes_of(&tables::from_truth_table(&kept)));
        start = end;
    }
    assert_eq!(start, total);
}

fn all_small_functions(comparison: &mut Comparison) {
    for n in 0..=3 {
        for number in 0..1u64 << (1 << n) {
            for k in 1..=10 {
                compare_function(comparison, &tables::numbered_truth_table(n, number), k);
            }
        }
    }
}

fn random_functions(comparison: &mut Comparison) {
    for n in 4..=8 {
        for _ in 0..25 {
            let function = tables::random_truth_table(&mut comparison.rng, n);
            for most in [7, 2 + (1 << n)] {
                let k = comparison.rng.between(2, most);
                compare_function(comparison, &function, k);
            }
        }
    }
}

/// Few parts, all of them, and single parts of random divisions, in memories of any length.
fn accepted(comparison: &mut Comparison) {
    for _ in 0..2000 {
        let table = bytes_of(&tables::of_any_size(&mut comparison.rng));
        let k = comparison.rng.between(2, 9);
        for j in 0..k {
            comparison.compare_served(Call::PartWrite { k, j }, &table);
        }
        for _ in 0..6 {
            let (k, j) = random_part(&mut comparison.rng);
            comparison.compare_any(Call::PartWrite { k, j }, &table);
        }
    }
}

fn part_borders(comparison: &mut Comparison) {
    let mut compared = [0, 17, 63].map(tables::extreme).concat();
    compared.extend((0..4).map(|_| tables::of_any_size(&mut comparison.rng)));
    for table in compared.iter().map(|words| bytes_of(words)) {
        for (k, j) in border_parts() {
            comparison.compare_served(Call::PartWrite { k, j }, &table);
        }
    }
}

/// Tables of any size with a part of each, a small one as often as not.
fn tables_and_parts(comparison: &mut Comparison, rounds: u64) -> Vec<(Vec<u8>, Call<'static>)> {
    (0..rounds)
        .map(|_| {
            let rng = &mut comparison.rng;
            let table = bytes_of(&tables::of_any_size(rng));
            let k = rng.pick(&[1, 2, 3, 10, 1_000, 65_535]);
            let j = rng.below(k);
            (table, Call::PartWrite { k, j })
        })
        .collect()
}

fn every_out(comparison: &mut Comparison) {
    for (table, call) in tables_and_parts(comparison, 250) {
        let sheet_len = sheets::needed(call, &table);
        for out_len in sheets::border_lengths(paper::out_needed(call, &table)) {
            for _ in 0..2 {
                comparison.compare_lengths(call, &table, sheet_len, out_len);
            }
        }
    }
}

/// The sheet after a written part, after 11 and after 15, about N + 1, about N + 512 and about
/// 4N + 512 places. For N = 0, too.
fn every_sheet(comparison: &mut Comparison) {
    let mut compared = tables_and_parts(comparison, 60);
    for n in [0, 1, 17, 63] {
        for permitted in [false, true] {
            let table = bytes_of(&tables::constant(n, permitted));
            compared.push((table, Call::PartWrite { k: 3, j: 2 }));
        }
    }
    for (table, call) in compared {
        let enough = paper::out_needed(call, &table);
        let node_count = table.len() / 8 - 1;
        for (call, out_len) in [
            (call, enough),
            (call, enough - 1),
            (Call::PartWrite { k: 7, j: 7 }, enough),
        ] {
            for places in [node_count + 1, node_count + 512, 4 * node_count + 512] {
                for sheet_len in sheets::border_lengths(8 * places) {
                    comparison.compare_lengths(call, &table, sheet_len, out_len);
                }
            }
        }
    }
}

/// The middle one of three parts of parity tables, and other parts of them.
fn many_new_records(comparison: &mut Comparison) {
    for n in 8..=63 {
        let words = tables::parity(n);
        let table = bytes_of(&words);
        let part = comparison.written_part(&table, 3, 1);
        let (_, node_count, _) = fields(words[0]);
        assert_eq!(part.len() as u64 / 8, node_count + 2 * n - 1);
        for _ in 0..40 {
            let k = comparison.rng.between(2, 65_535);
            let j = comparison.rng.pick(&[0, k / 2, k - 1]);
            comparison.compare_any(Call::PartWrite { k, j }, &table);
        }
    }
}

fn thousands(comparison: &mut Comparison) {
    for _ in 0..40 {
        let rng = &mut comparison.rng;
        let (n, widest) = (rng.between(18, 40), rng.between(500, 2_000));
        let words = tables::wide(rng, n, 3_000, widest as usize);
        let above = rng.below(64 - n);
        let table = bytes_of(&tables::with_settings_above(words, above));
        for k in [2, 3, 50, 65_535] {
            let j = comparison.rng.below(k);
            comparison.compare_served(Call::PartWrite { k, j }, &table);
        }
    }
}

fn one_part(comparison: &mut Comparison) {
    for _ in 0..1000 {
        let table = bytes_of(&tables::of_any_size(&mut comparison.rng));
        assert_eq!(comparison.written_part(&table, 1, 0), table);
    }
    for words in tables::wide_ones(&mut comparison.rng) {
        let table = bytes_of(&words);
        assert_eq!(comparison.written_part(&table, 1, 0), table);
    }
}

const MOST: usize = 8 * 65_536;

/// Writes a random part, into this many bytes.
fn write_any(comparison: &mut Comparison, table: &[u8], k: u64, out_len: usize) -> Answer {
    let j = comparison.rng.below(k);
    let call = Call::PartWrite { k, j };
    let sheet_len = sheets::needed(call, table) + 13;
    let outcome = comparison.compare_lengths(call, table, sheet_len, out_len);
    outcome.answer
}

fn refused(number: u64) -> Answer {
    Answer::refused(Refusal::new(number, 0))
}

/// Below settings that change nothing, all of 2^a parts have one record more in each of the a
/// topmost heights: with 65,535 - a records in the table 65,535, and more if there are more parts.
fn about_the_limit(comparison: &mut Comparison) {
    for added in [0, 1, 7, 14] {
        let words = tables::wide(&mut comparison.rng, 40, 65_535 - added, 5_000);
        let table = bytes_of(&tables::with_settings_above(words, 23));
        let k = 1 << added;
        for (out_len, answer) in [
            (MOST, Answer::result(MOST as u64)),
            (MOST + 9, Answer::result(MOST as u64)),
            (MOST - 1, refused(11)),
        ] {
            assert_eq!(write_any(comparison, &table, k, out_len), answer);
        }
        for out_len in [MOST + 8, MOST, MOST - 1, 8, 0] {
            let more = k << comparison.rng.between(1, 15 - added as u64);
            let answer = write_any(comparison, &table, more, out_len);
            assert_eq!(answer, refused(16));
        }
    }
}

/// With settings that change nothing above and below, the middle one of three parts has as many
/// new records as there can be, 124, if C is no multiple of 3.
fn most_new_records(comparison: &mut Comparison) {
    for (node_count, answer) in [(65_411, Answer::result(MOST as u64)), (65_412, refused(16))] {
        let table = loop {
            let words = tables::wide(&mut comparison.rng, 40, node_count, 5_000);
            let words = tables::with_settings_below(&words, 3);
            let table = bytes_of(&tables::with_settings_above(words, 20));
            let count = comparison.compare_served(Call::Count, &table).value();
            if !count.is_multiple_of(3) {
                break table;
            }
        };
        let call = Call::PartWrite { k: 3, j: 1 };
        assert_eq!(comparison.compare_served(call, &table), answer);
        for k in [2, 5, 40] {
            write_any(comparison, &table, k, MOST);
        }
    }
}
