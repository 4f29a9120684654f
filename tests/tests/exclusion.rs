//! The settings that rule a setup out: against the paper, and of small tables against trying all
//! setups.

use setupbook_tests::call::{Answer, Call};
use setupbook_tests::comparison::Comparison;
use setupbook_tests::layout::{bytes_of, fields};
use setupbook_tests::rng::Rng;
use setupbook_tests::tables::{self, TruthTable};

#[test]
fn exclusions_agree_with_the_paper() {
    let mut comparison = Comparison::of_run();
    comparison.run(&[
        ("all functions of up to 3 settings", all_small_functions),
        ("random functions of 4 to 9 settings", random_functions),
        ("one permitted setup, left at each setting", every_setting),
        ("all setups but one", all_but_one),
        ("C is 0, 1, 2^n - 1 or 2^n", extreme_counts),
        ("permitted setups with some settings turned", near_misses),
        ("up to 65,535 records", wide),
    ]);
    let tally = &comparison.tally;
    assert!(tally.calls("ruled out") >= 100_000);
    assert!(tally.answered("ruled out", 12) >= 500);
}

/// The answer of the library, compared with the paper.
fn ask(comparison: &mut Comparison, table: &[u8], setup: u64) -> Answer {
    comparison.compare_served(Call::RuledOut { setup }, table)
}

/// By trying all prefixes and all setups.
fn tried(function: &TruthTable, setup: usize) -> Answer {
    let n = function.len().ilog2();
    let agrees = |other: usize, p: u32| other >> (n - p) == setup >> (n - p);
    let beginning = |p: u32| (0..function.len()).find(|&x| function[x] && agrees(x, p));
    match (0..=n).find(|&p| beginning(p).is_none()) {
        None => Answer::found([0, 0, 0]),
        Some(0) => Answer::found([1, 0, 0]),
        Some(p) => Answer::found([2, u64::from(p), beginning(p - 1).unwrap() as u64]),
    }
}

/// Every setup of a truth table's table, and the first that is none.
fn compare_function(comparison: &mut Comparison, function: &TruthTable) {
    let table = bytes_of(&tables::from_truth_table(function));
    for setup in 0..function.len() {
        let answer = ask(comparison, &table, setup as u64);
        assert_eq!(answer, tried(function, setup), "setup {setup}");
    }
    let past = ask(comparison, &table, function.len() as u64);
    assert_eq!(past.refusal().map(|refusal| refusal.number), Some(12));
}

fn all_small_functions(comparison: &mut Comparison) {
    for function in tables::small_truth_tables() {
        compare_function(comparison, &function);
    }
}

fn random_functions(comparison: &mut Comparison) {
    for n in 4..=9 {
        for _ in 0..40 {
            let function = tables::random_truth_table(&mut comparison.rng, n);
            compare_function(comparison, &function);
        }
    }
}

/// A setup that has the first p - 1 settings of this one, another at setting p, and any behind it.
fn leaving_at(rng: &mut Rng, n: u64, setup: u64, p: u64) -> u64 {
    let weight = 1 << (n - p);
    let front = (setup ^ weight) & !(weight - 1);
    front + rng.below(weight)
}

fn every_setting(comparison: &mut Comparison) {
    for n in 1..=63 {
        for _ in 0..4 {
            let permitted = comparison.rng.below(1 << n);
            let table = bytes_of(&tables::of_setups(n, [permitted]));
            assert_eq!(ask(comparison, &table, permitted), Answer::found([0, 0, 0]));
            for p in 1..=n {
                let setup = leaving_at(&mut comparison.rng, n, permitted, p);
                assert_eq!(
                    ask(comparison, &table, setup),
                    Answer::found([2, p, permitted])
                );
            }
        }
    }
}

/// The one that is not permitted has its neighbour beside it: p is n.
fn all_but_one(comparison: &mut Comparison) {
    for n in 1..=63 {
        for _ in 0..4 {
            let setup = comparison.rng.below(1 << n);
            let table = bytes_of(&tables::turned_over(&tables::of_setups(n, [setup])));
            assert_eq!(
                ask(comparison, &table, setup),
                Answer::found([2, n, setup ^ 1])
            );
            let other = comparison.rng.below(1 << n);
            if other != setup {
                assert_eq!(ask(comparison, &table, other), Answer::found([0, 0, 0]));
            }
        }
    }
}

fn extreme_counts(comparison: &mut Comparison) {
    for n in 0..=63 {
        for words in tables::extreme(n) {
            let table = bytes_of(&words);
            for setup in [0, (1 << n) - 1, comparison.rng.below(1 << n)] {
                let answer = ask(comparison, &table, setup);
                let count = comparison.compare_served(Call::Count, &table).value();
                assert_eq!(answer == Answer::found([1, 0, 0]), count == 0);
            }
        }
    }
}

/// Asks for setups that are permitted, for some that leave these at a setting, and for any.
fn ask_near(comparison: &mut Comparison, words: &[u64], rounds: usize) {
    let table = bytes_of(words);
    let (n, ..) = fields(words[0]);
    let count = comparison.compare_served(Call::Count, &table).value();
    for _ in 0..rounds {
        let any = comparison.rng.below(1 << n);
        ask(comparison, &table, any);
        let Some(permitted) = comparison.any_permitted(&table, count) else {
            continue;
        };
        assert_eq!(ask(comparison, &table, permitted), Answer::found([0, 0, 0]));
        if n > 0 {
            let p = comparison.rng.between(1, n);
            let setup = leaving_at(&mut comparison.rng, n, permitted, p);
            let answer = ask(comparison, &table, setup);
            let [kind, by, given] = answer.words;
            assert!(kind == 0 || (kind == 2 && by >= p), "{answer:?}");
            if kind == 2 {
                let tested = comparison.compare_served(Call::Test { setup: given }, &table);
                assert_eq!(tested.value(), 1);
                assert_eq!((given ^ setup).ilog2() as u64, n - by);
            }
        }
    }
}

fn near_misses(comparison: &mut Comparison) {
    for _ in 0..2_000 {
        let words = tables::of_any_size(&mut comparison.rng);
        ask_near(comparison, &words, 8);
    }
}

fn wide(comparison: &mut Comparison) {
    for words in tables::wide_ones(&mut comparison.rng) {
        ask_near(comparison, &words, 40);
    }
}
