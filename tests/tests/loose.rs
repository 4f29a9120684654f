//! Loose tables made proper: what is written, and what is left in the memories, against the paper,
//! against the proper tables from which the loose ones were made, and against truth tables.

use setupbook_tests::call::{Answer, Call, Refusal};
use setupbook_tests::comparison::{front, Comparison};
use setupbook_tests::layout::{bytes_of, word};
use setupbook_tests::loosening::{loosened, Loose, MOST};
use setupbook_tests::reading::Table;
use setupbook_tests::rng::Rng;
use setupbook_tests::sheets;
use setupbook_tests::tables::{self, TruthTable};
use setupbook_tests::tally::MAKE_PROPER;

#[test]
fn proper_tables_agree_with_the_paper() {
    let mut comparison = Comparison::of_run();
    comparison.run(&[
        ("trees of all functions of up to 3 settings", small_trees),
        ("trees of random functions of 4 to 9 settings", random_trees),
        ("proper tables written otherwise", written_otherwise),
        ("one record a height, written otherwise", extremes),
        ("proper tables come back", proper_ones),
        ("records made up at random", random_records),
        ("every root edge", every_root),
        ("unused records only", unused_only),
        ("sheets of every length", every_sheet),
        ("out memories of every length", every_out),
        ("one call after another in the same memories", same_memories),
        ("all operations before and afterwards", all_operations),
        ("65,535 records, all different", all_different),
        ("65,535 records, some of them repeated", some_repeated),
        ("trees of 65,535 records", wide_trees),
        ("65,535 records, any", any_records),
    ]);
    comparison.tally.assert_calls(&[MAKE_PROPER], 40_000);
    assert!(comparison.tally.improper >= 20_000);
}

fn refused(number: u64) -> Answer {
    Answer::refused(Refusal::new(number, 0))
}

/// The places that are required, in bytes.
fn sheet_needed(table: &[u8]) -> usize {
    8 * (8 * (table.len() / 8 - 1) + 512)
}

/// Each setup is permitted by both tables or by neither; of many settings 100 setups are tried.
fn assert_same_setups(rng: &mut Rng, tables: [&[u8]; 2]) {
    let [one, other] = tables.map(Table::read);
    assert_eq!(one.n, other.n);
    let setups = match one.n {
        0..=10 => (0..1 << one.n).collect(),
        n => Vec::from_iter((0..100).map(|_| rng.below(1 << n))),
    };
    for setup in setups {
        let [one, other] = [&one, &other].map(|table| table.permits(table.root, setup));
        assert_eq!(one, other, "setup {setup}");
    }
}

/// Makes a table proper in memories that are long enough, and in some of any length. Gives back what
/// is written.
fn compare(comparison: &mut Comparison, words: &[u64]) -> Vec<u8> {
    let table = bytes_of(words);
    let written = comparison.made_proper(&table);
    assert_same_setups(&mut comparison.rng, [&table, &written]);
    comparison.compare_any(Call::MakeProper, &table);
    written
}

/// The same of a loose table that was made from a proper one.
fn compare_with(comparison: &mut Comparison, words: &[u64], proper: &[u64]) {
    assert_eq!(compare(comparison, words), bytes_of(proper));
}

/// The tree as it is, with the root as first record, and in any order, with flags turned over.
fn compare_trees(comparison: &mut Comparison, function: &TruthTable) {
    let proper = tables::from_truth_table(function);
    let mut tree = Loose::tree(function);
    compare_with(comparison, &tree.words(), &proper);
    for percent in [0, 30, 50, 100] {
        tree.turn(&mut comparison.rng, percent);
        tree.shuffle(&mut comparison.rng);
        compare_with(comparison, &tree.words(), &proper);
    }
    let words = loosened(&mut comparison.rng, &proper, 30);
    compare_with(comparison, &words, &proper);
}

fn small_trees(comparison: &mut Comparison) {
    for function in tables::small_truth_tables() {
        compare_trees(comparison, &function);
    }
}

fn random_trees(comparison: &mut Comparison) {
    for n in 4..=9 {
        for _ in 0..50 {
            let function = tables::random_truth_table(&mut comparison.rng, n);
            compare_trees(comparison, &function);
        }
    }
}

fn written_otherwise(comparison: &mut Comparison) {
    for _ in 0..3_000 {
        let rng = &mut comparison.rng;
        let proper = tables::of_any_size(rng);
        let more = rng.pick(&[1, 5, 20, 100, 500]);
        let words = loosened(rng, &proper, more);
        compare_with(comparison, &words, &proper);
    }
}

/// For each number of settings.
fn extremes(comparison: &mut Comparison) {
    for n in 0..=63 {
        for proper in tables::extreme(n) {
            for more in [0, 3, 20, 100] {
                let words = loosened(&mut comparison.rng, &proper, more);
                compare_with(comparison, &words, &proper);
            }
        }
    }
}

/// Byte for byte, unless the sheet or the out memory is too short.
fn proper_ones(comparison: &mut Comparison) {
    let mut refusals = [0, 0];
    let constants = (0..=63).flat_map(|n| [false, true].map(|all| tables::constant(n, all)));
    let others = (0..3_000).map(|_| tables::of_any_size(&mut comparison.rng));
    for words in Vec::from_iter(constants.chain(others)) {
        let table = bytes_of(&words);
        assert_eq!(comparison.made_proper(&table), table);
        let needed = sheet_needed(&table);
        let sheet_len = sheets::random_length(&mut comparison.rng, needed);
        let out_len = sheets::random_length(&mut comparison.rng, table.len());
        let outcome = comparison.compare_lengths(Call::MakeProper, &table, sheet_len, out_len);
        if sheet_len < needed {
            assert_eq!(outcome.answer, refused(10));
            refusals[0] += 1;
        } else if out_len < table.len() {
            assert_eq!(outcome.answer, refused(11));
            refusals[1] += 1;
        } else {
            assert_eq!(front(&outcome), table);
        }
    }
    assert!(refusals.iter().all(|&times| times >= 300), "{refusals:?}");
}

fn random_records(comparison: &mut Comparison) {
    for _ in 0..4_000 {
        let rng = &mut comparison.rng;
        let n = tables::any_settings(rng);
        let most = rng.pick(&[4, 12, 40, 300]);
        let node_count = rng.between(1, most) as usize;
        let mut loose = Loose::random(rng, n, node_count);
        if rng.chance(80) {
            loose.shuffle(rng);
        }
        compare(comparison, &loose.words());
    }
}

/// A root edge to the sink or to any node, flagged or not, is served; one above N is not.
fn every_root(comparison: &mut Comparison) {
    for _ in 0..100 {
        let rng = &mut comparison.rng;
        let n = rng.between(1, 10);
        let node_count = rng.between(1, 20);
        let mut loose = Loose::random(rng, n, node_count as usize);
        loose.shuffle(rng);
        let mut words = loose.words();
        for root in 0..2 * node_count + 2 {
            words[0] = word(n, node_count, root);
            compare(comparison, &words);
        }
        for root in [2 * node_count + 2, 2 * node_count + 3] {
            words[0] = word(n, node_count, root);
            let answer = comparison.compare_served(Call::MakeProper, &bytes_of(&words));
            assert_eq!(answer, refused(3));
        }
    }
}

/// Root edge 0 or 1 over any records, also such as lead to the same everywhere.
fn unused_only(comparison: &mut Comparison) {
    for n in 1..=63 {
        for permitted in [false, true] {
            let proper = tables::constant(n, permitted);
            for node_count in [1, 2, 40] {
                let rng = &mut comparison.rng;
                let mut loose = Loose::of(&proper);
                loose.add_unused(rng, node_count);
                compare_with(comparison, &loose.words(), &proper);

                let mut loose = Loose::of(&proper);
                for _ in 0..node_count {
                    loose.fill_gaps(&mut comparison.rng, 100, 1);
                }
                loose.shuffle(&mut comparison.rng);
                compare_with(comparison, &loose.words(), &proper);
            }
        }
    }
}

/// Some loose tables, each with the proper one.
fn some_loose(comparison: &mut Comparison, rounds: usize) -> Vec<[Vec<u8>; 2]> {
    let rng = &mut comparison.rng;
    let mut both = || {
        let proper = match rng.below(6) {
            0 => tables::constant(rng.below(64), rng.chance(50)),
            _ => tables::of_any_size(rng),
        };
        let loose = loosened(rng, &proper, 60);
        [loose, proper].map(|words| bytes_of(&words))
    };
    (0..rounds).map(|_| both()).collect()
}

/// 8N + 512 places are enough, and one byte less is not. All of them come back blank after a result
/// and after 11, and nothing else has changed.
fn every_sheet(comparison: &mut Comparison) {
    for [table, proper] in some_loose(comparison, 80) {
        let needed = sheet_needed(&table);
        for sheet_len in sheets::border_lengths(needed) {
            for (out_len, number) in [(proper.len(), 0), (proper.len() - 1, 11)] {
                let rng = &mut comparison.rng;
                let before = [sheet_len, out_len].map(|len| sheets::filling(rng, len));
                let [sheet, out] = &before;
                let outcome = comparison.compare(Call::MakeProper, &table, sheet, out);
                let (number, blank) = match sheet_len < needed {
                    true => (10, 0),
                    false => (number, needed),
                };
                assert_eq!(outcome.answer.status, number);
                assert!(outcome.sheet[..blank].iter().all(|&byte| byte == 0));
                assert_eq!(outcome.sheet[blank..], sheet[blank..]);
                let written: &[u8] = if number == 0 { &proper } else { out };
                assert_eq!(outcome.out, written);
            }
        }
    }
}

fn every_out(comparison: &mut Comparison) {
    for [table, proper] in some_loose(comparison, 250) {
        for out_len in sheets::border_lengths(proper.len()) {
            let needed = sheet_needed(&table);
            let sheet_len = sheets::served_length(&mut comparison.rng, needed);
            let outcome = comparison.compare_lengths(Call::MakeProper, &table, sheet_len, out_len);
            if out_len < proper.len() {
                assert_eq!(outcome.answer, refused(11));
            } else {
                assert_eq!(front(&outcome), proper);
            }
        }
    }
}

/// What one call leaves is what the next one finds; a count leaves the counts.
fn same_memories(comparison: &mut Comparison) {
    for [table, proper] in some_loose(comparison, 200) {
        for table in [table, proper] {
            let sheet_len = sheets::served_length(&mut comparison.rng, sheet_needed(&table));
            let sheet = sheets::filling(&mut comparison.rng, sheet_len);
            let out = sheets::filling(&mut comparison.rng, table.len() + 100);
            let mut lent = comparison.lend(&table, &sheet, &out);
            for call in [
                Call::MakeProper,
                Call::MakeProper,
                Call::Count,
                Call::MakeProper,
                Call::PartWrite { k: 2, j: 1 },
                Call::MakeProper,
            ] {
                comparison.compare_in(call, &mut lent);
            }
        }
    }
}

fn all_operations(comparison: &mut Comparison) {
    for [table, proper] in some_loose(comparison, 200) {
        comparison.compare_all(&table);
        let written = comparison.made_proper(&table);
        assert_eq!(written, proper);
        comparison.compare_all(&written);
    }
}

/// A table of 65,535 records, in memories that are just long enough.
fn compare_most(comparison: &mut Comparison, loose: &Loose, proper: &[u64]) {
    assert_eq!(loose.node_count(), MOST);
    let table = bytes_of(&loose.words());
    let out_len = 8 * proper.len();
    let outcome =
        comparison.compare_lengths(Call::MakeProper, &table, sheet_needed(&table), out_len);
    assert_eq!(outcome.answer, Answer::result(out_len as u64));
    assert!(outcome.out == bytes_of(proper));
}

/// The same in any order, with flags turned over; also in memories that are a byte too short.
fn compare_most_turned(comparison: &mut Comparison, mut loose: Loose, proper: &[u64]) {
    loose.turn(&mut comparison.rng, 50);
    loose.shuffle(&mut comparison.rng);
    compare_most(comparison, &loose, proper);
    let table = bytes_of(&loose.words());
    let (needed, out_len) = (sheet_needed(&table), 8 * proper.len());
    for (sheet_len, out_len, number) in [(needed + 5, out_len - 1, 11), (needed - 1, out_len, 10)] {
        let before = [sheet_len, out_len].map(|len| sheets::filling(&mut comparison.rng, len));
        let outcome = comparison.compare(Call::MakeProper, &table, &before[0], &before[1]);
        assert_eq!(outcome.answer, refused(number));
    }
}

/// The proper table as it is, and in any order.
fn all_different(comparison: &mut Comparison) {
    for (n, widest) in [(20, 40_000), (30, 5_000), (63, 2_000)] {
        let proper = tables::wide(&mut comparison.rng, n, MOST, widest);
        let mut loose = Loose::of(&proper);
        compare_most(comparison, &loose, &proper);
        loose.shuffle(&mut comparison.rng);
        compare_most(comparison, &loose, &proper);
        compare_most_turned(comparison, loose, &proper);
    }
}

/// All of them used, or some with two equal edges, or some unused.
fn some_repeated(comparison: &mut Comparison) {
    for (n, node_count, widest) in [(20, 64_000, 40_000), (63, 40_000, 2_000)] {
        let proper = tables::wide(&mut comparison.rng, n, node_count, widest);
        for way in 0..3 {
            let rng = &mut comparison.rng;
            let mut loose = Loose::of(&proper);
            let half = (MOST - node_count) / 2;
            match way {
                0 => {}
                1 => loose.fill_gaps(rng, 20, half),
                _ => loose.add_unused(rng, half),
            }
            while loose.node_count() < MOST {
                loose.repeat(rng, MOST - loose.node_count());
            }
            compare_most_turned(comparison, loose, &proper);
        }
    }
}

/// Of 16 settings: random functions, an even number of ones, nothing and everything.
fn wide_trees(comparison: &mut Comparison) {
    let rng = &mut comparison.rng;
    let setups = 0..1u64 << 16;
    for function in [
        tables::random_truth_table(rng, 16),
        setups.clone().map(|_| rng.chance(50)).collect(),
        setups.map(|setup| setup.count_ones() % 2 == 0).collect(),
        vec![false; 1 << 16],
        vec![true; 1 << 16],
    ] {
        let proper = tables::from_truth_table(&function);
        let tree = Loose::tree(&function);
        compare_most(comparison, &tree, &proper);
        compare_most_turned(comparison, tree, &proper);
    }
}

/// Made up at random, with any root and with the sink as root; and one record over and over.
fn any_records(comparison: &mut Comparison) {
    for n in [1, 2, 16, 63] {
        let mut words = Loose::random(&mut comparison.rng, n, MOST).words();
        compare(comparison, &words);
        words[0] = word(n, MOST as u64, 1);
        compare_most_turned(comparison, Loose::of(&words), &tables::constant(n, false));

        let (node, record) = (comparison.rng.between(1, MOST as u64), word(n, 0, 1));
        words.fill(record);
        words[0] = word(n, MOST as u64, 2 * node + 1);
        compare_most_turned(comparison, Loose::of(&words), &[word(n, 1, 3), record]);
    }
}
