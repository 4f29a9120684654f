//! Permitted setups by how many settings are on: against the paper, of small tables against trying all
//! setups, and against Pascal's triangle, which the program `binomials` prints.

use setupbook_tests::call::Call;
use setupbook_tests::comparison::Comparison;
use setupbook_tests::damage;
use setupbook_tests::files;
use setupbook_tests::layout::{bytes_of, fields};
use setupbook_tests::pascal;
use setupbook_tests::sheets;
use setupbook_tests::tables::{self, TruthTable};

#[test]
fn counts_agree_with_the_paper() {
    let mut comparison = Comparison::of_run();
    comparison.run(&[
        ("all functions of up to 3 settings", all_small_functions),
        ("random functions of 4 to 10 settings", random_functions),
        ("all setups, and none", constants),
        ("one setup, and all but one", chains),
        ("exactly j settings on", exactly),
        (
            "random tables, turned over, and with free settings",
            random_tables,
        ),
        ("sheets of every length", every_sheet),
        ("up to 65,535 records", wide),
    ]);
    assert!(comparison.tally.calls("count on") >= 40_000);
}

/// Above any n.
const GREAT: [u64; 5] = [64, 65, 1 << 32, 1 << 63, u64::MAX];

/// The count of the library, compared with the paper.
fn ask(comparison: &mut Comparison, table: &[u8], m: u64) -> u64 {
    comparison
        .compare_served(Call::CountOn { m }, table)
        .value()
}

/// The counts for m from 0 to n, which add up to C. For any greater m the count is 0.
fn weigh(comparison: &mut Comparison, words: &[u64]) -> Vec<u64> {
    let table = bytes_of(words);
    let (n, ..) = fields(words[0]);
    let counts: Vec<u64> = (0..=n).map(|m| ask(comparison, &table, m)).collect();
    let count = comparison.compare_served(Call::Count, &table).value();
    assert_eq!(counts.iter().sum::<u64>(), count);
    // One up to n, with a bit more.
    let more = (1 << comparison.rng.between(6, 63)) + comparison.rng.below(n + 1);
    let above = [n + 1, 63.max(n + 1), more];
    for m in above.into_iter().chain(GREAT) {
        assert_eq!(ask(comparison, &table, m), 0, "{m} of {n}");
    }
    counts
}

/// By trying all setups.
fn tried(function: &TruthTable) -> Vec<u64> {
    let mut counts = vec![0; function.len().ilog2() as usize + 1];
    for setup in (0..function.len()).filter(|&setup| function[setup]) {
        counts[setup.count_ones() as usize] += 1;
    }
    counts
}

fn compare_function(comparison: &mut Comparison, function: &TruthTable) {
    let counts = weigh(comparison, &tables::from_truth_table(function));
    assert_eq!(counts, tried(function));
}

fn all_small_functions(comparison: &mut Comparison) {
    for function in tables::small_truth_tables() {
        compare_function(comparison, &function);
    }
}

fn random_functions(comparison: &mut Comparison) {
    for n in 4..=10 {
        for _ in 0..30 {
            let function = tables::random_truth_table(&mut comparison.rng, n);
            compare_function(comparison, &function);
        }
    }
}

fn constants(comparison: &mut Comparison) {
    for n in 0..=63 {
        let all = weigh(comparison, &tables::constant(n, true));
        assert_eq!(all, pascal::row(n));
        let none = weigh(comparison, &tables::constant(n, false));
        assert_eq!(none, pascal::rest(&all));
    }
}

/// The setup with all settings on, or the one with none; and all but this one.
fn chains(comparison: &mut Comparison) {
    for n in 1..=63 {
        for (only_one, on) in [(true, n), (false, 0)] {
            let mut one = vec![0; n as usize + 1];
            one[on as usize] = 1;
            let mut expected = [pascal::rest(&one), one];
            if only_one {
                expected.reverse();
            }
            for (root_flag, counts) in (0..).zip(expected) {
                let words = tables::chain(n, only_one, root_flag);
                assert_eq!(weigh(comparison, &words), counts);
            }
        }
    }
}

fn exactly(comparison: &mut Comparison) {
    for n in 0..=63 {
        for (j, words) in tables::some_with_exactly(&mut comparison.rng, n) {
            let table = bytes_of(&words);
            let count = ask(comparison, &table, j);
            assert_eq!(count, pascal::row(n)[j as usize], "{j} of {n}");
            let any = comparison.rng.below(n + 1);
            for m in [j.wrapping_sub(1), j + 1, any, n + 1] {
                let count = ask(comparison, &table, m);
                assert!(count == 0 || m == j, "{m}, {j} of {n}: {count}");
            }
        }
    }
}

/// With the root edge's flag turned over the counts are the rest of the triangle's row, and with each
/// setting that changes nothing, above or below all others, they follow the triangle's rule.
fn compare_kin(comparison: &mut Comparison, words: &[u64]) {
    let counts = weigh(comparison, words);
    let turned = tables::turned_over(words);
    assert_eq!(weigh(comparison, &turned), pascal::rest(&counts));
    let (n, ..) = fields(words[0]);
    let more = comparison.rng.below(64 - n);
    let wider = (0..more).fold(counts, |counts, _| pascal::next(&counts));
    let above = tables::with_settings_above(turned, more);
    assert_eq!(weigh(comparison, &above), pascal::rest(&wider));
    let below = tables::with_settings_below(words, more);
    assert_eq!(weigh(comparison, &below), wider);
}

fn random_tables(comparison: &mut Comparison) {
    for _ in 0..150 {
        let words = tables::of_any_size(&mut comparison.rng);
        compare_kin(comparison, &words);
    }
}

/// 64 places for each word of the table are enough, and one byte less is not. All of them come back
/// blank after a result and after 9, and nothing else has changed.
fn every_sheet(comparison: &mut Comparison) {
    for round in 0..60 {
        let mut words = tables::of_any_size(&mut comparison.rng);
        if round % 3 == 2 {
            damage::aim(&mut comparison.rng, &mut words, 9);
        }
        let table = bytes_of(&words);
        let needed = 64 * table.len();
        let (n, ..) = fields(words[0]);
        // As many places as other calls need, 63 a word, and those of one word too few.
        let others = [table.len(), 63 * table.len(), needed - 512];
        for len in [&sheets::border_lengths(needed)[..], &others].concat() {
            let m = comparison.rng.below(n + 2);
            comparison.compare_sheet(Call::CountOn { m }, &table, len, needed);
        }
    }
}

fn wide(comparison: &mut Comparison) {
    for words in tables::wide_ones(&mut comparison.rng) {
        let (n, ..) = fields(words[0]);
        let m = comparison.rng.between(n / 4, 3 * n / 4);
        assert!(ask(comparison, &bytes_of(&words), m) > 0);
    }
}

/// The stored output of the program, one number a line, row by row.
#[test]
fn the_triangle_is_printed() {
    let triangle = pascal::triangle().concat();
    assert_eq!(triangle.len(), 2_080);
    let lines: String = triangle.iter().map(|entry| format!("{entry}\n")).collect();
    let is_printed = files::text("../crates/binomials/stdout") == lines;
    assert!(is_printed, "crates/binomials/stdout");
}
