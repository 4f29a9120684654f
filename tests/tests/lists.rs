//! Unranking a list against the paper, against the permitted setups in their order, and against
//! unranking each number alone.

use std::iter;

use setupbook_tests::call::{Answer, Call, List, Outcome, Refusal};
use setupbook_tests::comparison::Comparison;
use setupbook_tests::layout::{bytes_of, words_of};
use setupbook_tests::lists;
use setupbook_tests::rng::Rng;
use setupbook_tests::sheets;
use setupbook_tests::tables::{self, TruthTable};

#[test]
fn lists_agree_with_the_paper() {
    let mut comparison = Comparison::of_run();
    comparison.run(&[
        ("all lists of up to 3 items", all_short_lists),
        ("every number of a table", whole_numberings),
        ("random lists", random_lists),
        ("one list after another in the same memories", same_memories),
        ("every length of both lists", every_length),
        ("17 and 14 at every item", every_item),
        ("C is 0, 1, 2^n - 1 or 2^n", extreme_counts),
        ("up to 20,000 items", many_items),
        ("70,000 items", great_places),
        ("up to 65,535 records", wide),
    ]);
    let tally = &comparison.tally;
    assert!(tally.calls("unrank list") >= 100_000);
    for refusal in [14, 17, 18] {
        assert!(tally.answered("unrank list", refusal) >= 5_000);
    }
}

fn unrank_list(ranks: &[u8]) -> Call<'_> {
    Call::UnrankList { ranks: List(ranks) }
}

fn refused(number: u64, place: u64) -> Answer {
    Answer::refused(Refusal::new(number, place))
}

/// Unranks a list, in memories that are long enough.
fn outcome(comparison: &mut Comparison, table: &[u8], items: &[u64]) -> Outcome {
    let ranks = lists::with_spare(&mut comparison.rng, items);
    comparison.outcome_served(unrank_list(&ranks), table)
}

/// The setups that a call has written; it has not been refused.
fn setups(outcome: &Outcome) -> Vec<u64> {
    words_of(&outcome.out[..8 * outcome.answer.value() as usize])
}

fn answer(comparison: &mut Comparison, table: &[u8], items: &[u64]) -> Answer {
    outcome(comparison, table, items).answer
}

/// The answer if the setups are a byte too short.
fn answer_short(comparison: &mut Comparison, table: &[u8], items: &[u64]) -> Answer {
    let ranks = lists::with_spare(&mut comparison.rng, items);
    let call = unrank_list(&ranks);
    let (sheet_len, out_len) = (sheets::needed(call, table), 8 * items.len() - 1);
    let outcome = comparison.compare_lengths(call, table, sheet_len, out_len);
    outcome.answer
}

/// C, by the library.
fn count(comparison: &mut Comparison, table: &[u8]) -> u64 {
    comparison.compare_served(Call::Count, table).value()
}

/// The setup of a number alone, by the library.
fn alone(comparison: &mut Comparison, table: &[u8], rank: u64) -> u64 {
    let call = Call::Unrank { rank };
    comparison.compare_served(call, table).value()
}

/// All lists of up to `most` of these numbers.
fn all_lists(numbers: &[u64], most: usize) -> Vec<Vec<u64>> {
    let mut all = vec![vec![]];
    let mut longest = all.clone();
    for _ in 0..most {
        let longer = |list: &Vec<u64>| -> Vec<Vec<u64>> {
            let with = |&number| [&list[..], &[number]].concat();
            numbers.iter().map(with).collect()
        };
        longest = longest.iter().flat_map(longer).collect();
        all.extend_from_slice(&longest);
    }
    all
}

fn permitted(function: &TruthTable) -> Vec<u64> {
    let setups = 0..function.len() as u64;
    setups.filter(|&setup| function[setup as usize]).collect()
}

fn all_short_lists(comparison: &mut Comparison) {
    for n in 0..=3 {
        for number in 0..1u64 << (1 << n) {
            let function = tables::numbered_truth_table(n, number);
            let table = bytes_of(&tables::from_truth_table(&function));
            let permitted = permitted(&function);
            let numbers: Vec<u64> = (0..permitted.len() as u64 + 2).collect();
            for items in all_lists(&numbers, 3) {
                let outcome = outcome(comparison, &table, &items);
                if outcome.answer.refusal().is_none() {
                    let own = items.iter().map(|&rank| permitted[rank as usize]);
                    assert_eq!(setups(&outcome), own.collect::<Vec<u64>>());
                }
            }
        }
    }
}

/// Every number once to three times: the permitted setups in their order.
fn whole_numberings(comparison: &mut Comparison) {
    for n in 1..=9 {
        for _ in 0..20 {
            let function = tables::random_truth_table(&mut comparison.rng, n);
            let table = bytes_of(&tables::from_truth_table(&function));
            let (mut items, mut own) = (vec![], vec![]);
            for (rank, setup) in (0..).zip(permitted(&function)) {
                assert_eq!(alone(comparison, &table, rank), setup);
                let times = comparison.rng.between(1, 3) as usize;
                items.extend(iter::repeat_n(rank, times));
                own.extend(iter::repeat_n(setup, times));
            }
            assert_eq!(setups(&outcome(comparison, &table, &items)), own);
        }
    }
}

/// Fewer than `limit` items, most lists in order and most items below C, some close to one another
/// and some far apart.
fn random_list(rng: &mut Rng, count: u64, limit: u64) -> Vec<u8> {
    let (len, count) = (rng.below(limit), count.max(1));
    let first = rng.below(count);
    let item = |_| {
        let range = 1 << rng.below(63);
        (first + rng.below(range)) % count
    };
    let items = (0..len).map(item).collect();
    let other = rng.pick(&[count, count - 1, 0, u64::MAX]);
    lists::mostly_in_order(rng, items, other)
}

fn random_lists(comparison: &mut Comparison) {
    for _ in 0..3000 {
        let table = bytes_of(&tables::of_any_size(&mut comparison.rng));
        let count = count(comparison, &table);
        for limit in [4, 12, 40] {
            let ranks = random_list(&mut comparison.rng, count, limit);
            comparison.compare_any(unrank_list(&ranks), &table);
        }
    }
}

fn same_memories(comparison: &mut Comparison) {
    for _ in 0..100 {
        let rng = &mut comparison.rng;
        let table = bytes_of(&tables::of_any_size(rng));
        let sheet = sheets::filling(rng, table.len() + 9);
        let out = sheets::filling(rng, 8 * 6 + 5);
        let count = count(comparison, &table);
        let mut lent = comparison.lend(&table, &sheet, &out);
        for _ in 0..20 {
            let ranks = random_list(&mut comparison.rng, count, 9);
            comparison.compare_in(unrank_list(&ranks), &mut lent);
        }
    }
}

/// Numbers from 0 to C - 1, as far apart as can be.
fn spread(count: u64, len: usize) -> Vec<u64> {
    let number = |i| i as u128 * u128::from(count - 1) / (len as u128 - 1).max(1);
    (0..len).map(|i| number(i) as u64).collect()
}

/// Up to five items and seven spare bytes; the setups up to one item more.
fn every_length(comparison: &mut Comparison) {
    for n in [0, 5, 31, 63] {
        let table = bytes_of(&tables::random_accepted(&mut comparison.rng, n, 40));
        let count = count(comparison, &table).max(1);
        let list = bytes_of(&spread(count, 6));
        for len in 0..48 {
            let call = unrank_list(&list[..len]);
            let sheet_len = sheets::needed(call, &table);
            for out_len in 0..56 {
                comparison.compare_lengths(call, &table, sheet_len, out_len);
            }
        }
    }
}

/// Lowers an item, from 1, below the one before it, which is not 0.
fn lower(rng: &mut Rng, items: &mut [u64], place: usize) {
    items[place - 1] = rng.below(items[place - 2]);
}

/// Raises all items from this one on by C, or none, if it is past the last.
fn raise(items: &mut [u64], place: usize, count: u64) {
    for item in &mut items[place - 1..] {
        *item += count;
    }
}

/// Tables with more than a thousand setups.
fn great_tables(rng: &mut Rng) -> [Vec<u8>; 4] {
    [
        tables::constant(63, true),
        tables::chain(12, false, 0),
        tables::parity(20),
        tables::wide(rng, 25, 2_000, 600),
    ]
    .map(|words| bytes_of(&words))
}

/// A list of 20 items with one that is below the one before it, one from which on all are too high,
/// or both, each at every item.
fn every_item(comparison: &mut Comparison) {
    const ITEMS: usize = 20;
    for table in great_tables(&mut comparison.rng) {
        let count = count(comparison, &table);
        for low in 1..=ITEMS {
            for high in 1..=ITEMS + 1 {
                let mut items: Vec<u64> = (1..=ITEMS as u64).map(|item| 10 * item).collect();
                raise(&mut items, high, count);
                if low > 1 {
                    lower(&mut comparison.rng, &mut items, low);
                }
                let expected = if low > 1 {
                    refused(17, low as u64)
                } else if high <= ITEMS {
                    refused(14, high as u64)
                } else {
                    Answer::result(ITEMS as u64)
                };
                assert_eq!(answer(comparison, &table, &items), expected);
                let short = answer_short(comparison, &table, &items);
                assert_eq!(short, refused(18, 0));
            }
        }
    }
}

/// All lists of up to 3 numbers at the borders.
fn extreme_counts(comparison: &mut Comparison) {
    for words in [0, 1, 17, 62, 63].map(tables::extreme).concat() {
        let table = bytes_of(&words);
        let count = count(comparison, &table);
        let mut numbers = vec![0, 1, u64::MAX - 1, u64::MAX];
        for border in [count, 1 << 63] {
            numbers.extend([border.saturating_sub(1), border, border + 1]);
        }
        numbers.sort();
        numbers.dedup();
        for items in all_lists(&numbers, 3) {
            answer(comparison, &table, &items);
        }
    }
}

/// Compares a list that is served, and ten of its setups with those of the numbers alone.
fn compare_alone(comparison: &mut Comparison, table: &[u8], items: &[u64]) {
    let setups = setups(&outcome(comparison, table, items));
    for _ in 0..items.len().min(10) {
        let at = comparison.rng.index(items.len());
        assert_eq!(setups[at], alone(comparison, table, items[at]));
    }
}

fn many_items(comparison: &mut Comparison) {
    for table in great_tables(&mut comparison.rng) {
        let count = count(comparison, &table);
        for len in [0, 1, 8_191, 8_192, 8_193, 20_000] {
            compare_alone(comparison, &table, &spread(count, len));
        }
    }
}

/// Places that are no 16-bit numbers.
fn great_places(comparison: &mut Comparison) {
    const ITEMS: usize = 70_000;
    let (table, count) = (bytes_of(&tables::constant(17, true)), 1 << 17);
    let rising: Vec<u64> = (0..ITEMS as u64).collect();
    assert_eq!(setups(&outcome(comparison, &table, &rising)), rising);
    let short = answer_short(comparison, &table, &rising);
    assert_eq!(short, refused(18, 0));
    for place in [65_535, 65_536, 65_537, 69_999, ITEMS] {
        let mut items = rising.clone();
        raise(&mut items, place, count);
        let too_high = refused(14, place as u64);
        assert_eq!(answer(comparison, &table, &items), too_high);
        for high in [2, 65_536, 69_998, ITEMS + 1] {
            let mut items = rising.clone();
            raise(&mut items, high, count);
            lower(&mut comparison.rng, &mut items, place);
            let falling = refused(17, place as u64);
            assert_eq!(answer(comparison, &table, &items), falling);
        }
    }
}

/// Numbers far apart, and neighbouring ones.
fn wide(comparison: &mut Comparison) {
    for words in tables::wide_ones(&mut comparison.rng) {
        let table = bytes_of(&words);
        let count = count(comparison, &table);
        let start = comparison.rng.below(count - 200);
        let neighbours = (start..start + 200).collect();
        let last = (count - 200..count).collect();
        for mut items in [spread(count, 200), neighbours, last, spread(count, 8_192)] {
            compare_alone(comparison, &table, &items);
            let (place, end) = (comparison.rng.between(2, 200), items.len());
            raise(&mut items, place as usize, count);
            let too_high = refused(14, place);
            assert_eq!(answer(comparison, &table, &items), too_high);
            lower(&mut comparison.rng, &mut items, end);
            let falling = refused(17, end as u64);
            assert_eq!(answer(comparison, &table, &items), falling);
        }
    }
}
