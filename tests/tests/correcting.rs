//! The closest permitted setups: against the paper, where few are permitted or few are not against
//! trying setups, and against what the library says of them otherwise.

use setupbook_tests::call::{Answer, Call, Refusal};
use setupbook_tests::comparison::Comparison;
use setupbook_tests::damage;
use setupbook_tests::distance::{closest_of, distance};
use setupbook_tests::layout::{bytes_of, fields, settings};
use setupbook_tests::reading::Table;
use setupbook_tests::rng::Rng;
use setupbook_tests::sheets;
use setupbook_tests::tables::{self, TruthTable};

#[test]
fn closest_setups_agree_with_the_paper() {
    let mut comparison = Comparison::of_run();
    comparison.run(&[
        ("all functions of up to 3 settings", all_small_functions),
        ("random functions of 4 to 9 settings", random_functions),
        ("all setups, and none", constants),
        ("one setup", one),
        ("all setups but those near one", all_but_near),
        ("exactly j settings on", exactly),
        ("multiples of a number", multiples),
        ("few setups, and all but few", few),
        ("settings that change nothing", free_settings),
        ("permitted setups with some settings turned", near_misses),
        ("sheets of every length", every_sheet),
        ("up to 65,535 records", wide),
    ]);
    let tally = &comparison.tally;
    assert!(tally.calls("closest") >= 60_000);
    for number in [10, 12, 21] {
        assert!(tally.answered("closest", number) >= 500, "refusal {number}");
    }
}

fn permits(comparison: &mut Comparison, table: &[u8], setup: u64) -> bool {
    let answer = comparison.compare_served(Call::Test { setup }, table);
    answer.value() == 1
}

/// The closest setup by the library, compared with the paper; none by 21, just where it counts none.
/// It is permitted, the distance fits, and a permitted setup is its own.
fn ask(comparison: &mut Comparison, table: &[u8], setup: u64) -> Option<u64> {
    let answer = comparison.compare_served(Call::Closest { setup }, table);
    let count = comparison.compare_served(Call::Count, table).value();
    if count == 0 {
        assert_eq!(answer, Answer::refused(Refusal::new(21, 0)));
        return None;
    }
    let closest = answer.value();
    let fewest = distance(closest, setup);
    assert_eq!(answer, Answer::found([closest, fewest, 0]));
    assert!(permits(comparison, table, closest));
    assert_eq!(permits(comparison, table, setup), fewest == 0);
    Some(closest)
}

/// Asks for these setups, and for some that are none.
fn compare(
    comparison: &mut Comparison,
    words: &[u64],
    setups: impl IntoIterator<Item = u64>,
    expected: impl Fn(u64) -> Option<u64>,
) {
    let table = bytes_of(words);
    for setup in setups {
        let closest = ask(comparison, &table, setup);
        assert_eq!(closest, expected(setup), "setup {setup} of {words:016X?}");
    }
    let limit = 1 << settings(&table);
    for setup in [limit, limit + comparison.rng.below(limit), u64::MAX] {
        let answer = comparison.compare_served(Call::Closest { setup }, &table);
        assert_eq!(answer, Answer::refused(Refusal::new(12, 0)));
    }
}

/// All setups of n settings that differ from the given one in exactly so many.
fn at_distance(n: u64, given: u64, count: u64) -> Vec<u64> {
    if count == 0 {
        return vec![given];
    }
    // By the first setting in which they differ.
    let first = |height| at_distance(height, given ^ (1 << height), count - 1);
    (0..n).flat_map(first).collect()
}

/// The closest setup, if there is one, by turning no setting, each, each two, and so on up to so many.
fn by_turning(n: u64, given: u64, most: u64, permits: impl Fn(u64) -> bool) -> Option<u64> {
    let smallest = |count| {
        let setups = at_distance(n, given, count).into_iter();
        setups.filter(|&setup| permits(setup)).min()
    };
    (0..=most).find_map(smallest)
}

/// A setup with some settings turned, up to so many.
fn turned(rng: &mut Rng, n: u64, setup: u64, most: u64) -> u64 {
    (0..most).fold(setup, |setup, _| setup ^ (1 << rng.below(n)))
}

/// None on, all on, and some random ones.
fn any_setups(rng: &mut Rng, n: u64) -> Vec<u64> {
    let any = (0..3).map(|_| rng.below(1 << n));
    any.chain([0, (1 << n) - 1]).collect()
}

fn compare_function(comparison: &mut Comparison, function: &TruthTable) {
    let words = tables::from_truth_table(function);
    let permitted = (0..).zip(function).filter(|(_, permitted)| **permitted);
    let permitted: Vec<u64> = permitted.map(|(setup, _)| setup).collect();
    compare(comparison, &words, 0..function.len() as u64, |setup| {
        closest_of(&permitted, setup)
    });
}

fn all_small_functions(comparison: &mut Comparison) {
    for function in tables::small_truth_tables() {
        compare_function(comparison, &function);
    }
}

fn random_functions(comparison: &mut Comparison) {
    for n in 4..=9 {
        for _ in 0..20 {
            let function = tables::random_truth_table(&mut comparison.rng, n);
            compare_function(comparison, &function);
        }
    }
}

fn constants(comparison: &mut Comparison) {
    for n in 0..=63 {
        let setups = any_setups(&mut comparison.rng, n);
        compare(comparison, &tables::constant(n, true), setups.clone(), Some);
        compare(comparison, &tables::constant(n, false), setups, |_| None);
    }
}

/// However far it is.
fn one(comparison: &mut Comparison) {
    for n in 0..=63 {
        for only in any_setups(&mut comparison.rng, n) {
            let opposite = only ^ ((1 << n) - 1);
            let mut setups = any_setups(&mut comparison.rng, n);
            setups.extend([only, opposite]);
            let words = tables::of_setups(n, [only]);
            compare(comparison, &words, setups, |_| Some(only));
        }
    }
}

/// All but those that differ from one setup in up to 0, 1 or 2 settings: it has to be left by one more.
fn all_but_near(comparison: &mut Comparison) {
    for n in 0..=63 {
        for near in 0..=2 {
            let centre = comparison.rng.below(1 << n);
            let around = (0..=near).flat_map(|count| at_distance(n, centre, count));
            let words = tables::turned_over(&tables::of_setups(n, around));
            let mut setups = vec![centre];
            if n > 0 {
                setups.push(turned(&mut comparison.rng, n, centre, 1));
                setups.push(turned(&mut comparison.rng, n, centre, 2));
                setups.push(comparison.rng.below(1 << n));
            }
            compare(comparison, &words, setups, |setup| {
                by_turning(n, setup, n, |other| distance(other, centre) > near)
            });
        }
    }
}

/// The smallest setup with exactly j settings on that is reached by turning as few as can be: the
/// first ones that are on, or the last ones that are off.
fn turned_to(setup: u64, j: u64) -> u64 {
    let mut setup = setup;
    while u64::from(setup.count_ones()) > j {
        setup ^= 1 << setup.ilog2();
    }
    while u64::from(setup.count_ones()) < j {
        setup |= setup + 1;
    }
    setup
}

fn exactly(comparison: &mut Comparison) {
    for n in 0..=63 {
        for (j, words) in tables::some_with_exactly(&mut comparison.rng, n) {
            let setups = any_setups(&mut comparison.rng, n);
            compare(comparison, &words, setups, |setup| {
                let closest = turned_to(setup, j);
                let on = u64::from(setup.count_ones());
                assert_eq!(distance(closest, setup), on.abs_diff(j));
                Some(closest)
            });
        }
    }
}

fn multiples(comparison: &mut Comparison) {
    for m in [1, 3, 5, 7, 9, 11, 97, 997] {
        for n in [1, 5, 10, 15, 20, 30, 45, 62, 63] {
            let setups = any_setups(&mut comparison.rng, n);
            compare(comparison, &tables::multiples(n, m), setups, |setup| {
                by_turning(n, setup, n, |other| other % m == 0)
            });
        }
    }
    // Of a power of two: the last settings are off.
    for last in 0..=9 {
        let n = comparison.rng.between(last, 63);
        let setups = any_setups(&mut comparison.rng, n);
        let words = tables::multiples(n, 1 << last);
        compare(comparison, &words, setups, |setup| {
            Some(setup >> last << last)
        });
    }
}

/// Some setups, and setups at all distances from them.
fn compare_few(comparison: &mut Comparison, n: u64, count: usize) -> Vec<u64> {
    let rng = &mut comparison.rng;
    let permitted: Vec<u64> = (0..count).map(|_| rng.below(1 << n)).collect();
    let mut setups = any_setups(rng, n);
    for most in [0, 1, 2, 5, n] {
        let near = rng.pick(&permitted);
        setups.push(turned(rng, n, near, most));
    }
    let words = tables::of_setups(n, permitted.iter().copied());
    compare(comparison, &words, setups.clone(), |setup| {
        closest_of(&permitted, setup)
    });
    compare(comparison, &tables::turned_over(&words), setups, |setup| {
        by_turning(n, setup, n, |other| !permitted.contains(&other))
    });
    words
}

fn few(comparison: &mut Comparison) {
    for n in 1..=63 {
        for count in [2, 3, 10, 50] {
            compare_few(comparison, n, count);
        }
    }
}

/// Settings that change nothing, above or below all others, keep their values.
fn free_settings(comparison: &mut Comparison) {
    for _ in 0..500 {
        let words = tables::of_any_size(&mut comparison.rng);
        let (n, ..) = fields(words[0]);
        let more = comparison.rng.below(64 - n);
        for words in [tables::turned_over(&words), words] {
            let setup = comparison.rng.below(1 << n);
            let free = comparison.rng.below(1 << more);
            let closest = ask(comparison, &bytes_of(&words), setup);
            let below = tables::with_settings_below(&words, more);
            compare(comparison, &below, [(setup << more) + free], |_| {
                closest.map(|closest| (closest << more) + free)
            });
            let above = tables::with_settings_above(words, more);
            compare(comparison, &above, [(free << n) + setup], |_| {
                closest.map(|closest| (free << n) + closest)
            });
        }
    }
}

/// Asks for a setup. If one that differs in up to two settings is permitted, it is found by turning.
fn ask_turning(comparison: &mut Comparison, table: &[u8], setup: u64) -> Option<u64> {
    let closest = ask(comparison, table, setup);
    let reading = Table::read(table);
    let permits = |other| reading.permits(reading.root, other);
    let near = closest.filter(|&closest| distance(closest, setup) <= 2);
    assert_eq!(by_turning(reading.n, setup, 2, permits), near);
    closest
}

/// Asks for setups that are permitted, for these with one, two or several settings turned, and for any.
fn ask_near(comparison: &mut Comparison, words: &[u64], rounds: usize) {
    let table = bytes_of(words);
    let n = settings(&table);
    let count = comparison.compare_served(Call::Count, &table).value();
    for _ in 0..rounds {
        let any = comparison.rng.below(1 << n);
        ask_turning(comparison, &table, any);
        let Some(permitted) = comparison.any_permitted(&table, count) else {
            continue;
        };
        for most in [0, 1, 2, comparison.rng.between(3, 9)] {
            let setup = turned(&mut comparison.rng, n, permitted, most);
            let closest = ask_turning(comparison, &table, setup).unwrap();
            assert!(distance(closest, setup) <= most);
        }
    }
}

fn near_misses(comparison: &mut Comparison) {
    for _ in 0..800 {
        let words = tables::of_any_size(&mut comparison.rng);
        ask_near(comparison, &words, 2);
        ask_near(comparison, &tables::turned_over(&words), 1);
    }
}

/// Two places for each word of the table are enough, and one byte less is not. Both come back blank
/// after a result and after 9, 12 and 21, and nothing else has changed.
fn every_sheet(comparison: &mut Comparison) {
    for round in 0..80 {
        let rng = &mut comparison.rng;
        let mut words = match round % 4 {
            3 => tables::constant(rng.below(64), false),
            _ => tables::of_any_size(rng),
        };
        if round % 4 == 2 {
            damage::aim(rng, &mut words, 9);
        }
        let table = bytes_of(&words);
        let needed = 2 * table.len();
        let limit = 1 << settings(&table);
        // As many places as other calls need.
        let others = [table.len(), table.len() + 8, 64 * table.len()];
        for len in [&sheets::border_lengths(needed)[..], &others].concat() {
            for setup in [comparison.rng.below(limit), limit] {
                comparison.compare_sheet(Call::Closest { setup }, &table, len, needed);
            }
        }
    }
}

fn wide(comparison: &mut Comparison) {
    for words in tables::wide_ones(&mut comparison.rng) {
        ask_near(comparison, &words, 3);
        ask_near(comparison, &tables::turned_over(&words), 1);
    }
    // Some 44 records a setup.
    let words = compare_few(comparison, 63, 1_400);
    assert!(words.len() > 60_000);
}
