//! The paper's samples.

use std::fs;

use setupbook_tests::call::{Answer, Call, List, Outcome, Refusal};
use setupbook_tests::combination::{self, Memories, Operation};
use setupbook_tests::combined::Reading;
use setupbook_tests::comparison::{front, Comparison};
use setupbook_tests::distance::{closest_of, distance};
use setupbook_tests::files;
use setupbook_tests::layout::{bytes_of, words_of};

const A: [u64; 4] = [
    0x0C00000060000006,
    0x0400000000000001,
    0x0800000040000003,
    0x0C00000080000000,
];

/// The two parts of A for k = 2.
const HALVES_OF_A: [&[u64]; 2] = [
    &[
        0x0C00000060000007,
        0x0400000000000001,
        0x0800000040000001,
        0x0C00000000000004,
    ],
    &[
        0x0C00000080000008,
        0x0400000000000001,
        0x0800000040000001,
        0x0800000040000003,
        0x0C000000C0000004,
    ],
];

/// A with another header, or with another record.
fn a_with(place: usize, word: u64) -> [u64; 4] {
    let mut words = A;
    words[place] = word;
    words
}

/// An accepted table: its words, n, N, C and the setups it permits, all below 2^n.
struct Sample {
    words: Vec<u64>,
    n: u64,
    node_count: u64,
    count: u64,
    permitted: Vec<u64>,
}

fn accepted_samples() -> Vec<Sample> {
    let sample = |words: &[u64], n, node_count, count, permitted: &[u64]| Sample {
        words: words.to_vec(),
        n,
        node_count,
        count,
        permitted: permitted.to_vec(),
    };
    vec![
        sample(&A, 3, 3, 6, &[0, 1, 2, 3, 4, 7]),
        sample(&a_with(0, 0x0C00000060000007), 3, 3, 2, &[5, 6]),
        sample(&[0x0000000000000000], 0, 0, 1, &[0]),
        sample(&[0x0C00000000000001], 3, 0, 0, &[]),
        sample(HALVES_OF_A[0], 3, 3, 3, &[0, 1, 2]),
        sample(HALVES_OF_A[1], 3, 4, 3, &[3, 4, 7]),
    ]
}

/// The table, the refusal and its place.
fn refused_samples() -> Vec<(Vec<u8>, u64, u64)> {
    let table = |words: &[u64], number, place| (bytes_of(words), number, place);
    vec![
        (vec![0; 7], 1, 0),
        (bytes_of(&A)[..7].to_vec(), 1, 0),
        table(&[0x0C00200000000000], 2, 0),
        table(&a_with(0, 0x0C00000060000004), 3, 0),
        table(&a_with(1, 0x0000000000000001), 4, 1),
        table(&a_with(1, 0x0400000020000000), 7, 1),
        table(&a_with(2, 0x0400000000000001), 5, 2),
        table(&a_with(2, 0x0800000080000001), 6, 2),
        table(&a_with(3, 0x0C00000080000004), 8, 3),
        table(&a_with(3, 0x0C00000040000000), 9, 2),
        // An edge's fault before the order's.
        table(
            &[0x0800000040000004, 0x0800000000000001, 0x0400000040000001],
            6,
            2,
        ),
    ]
}

fn refused(number: u64, place: u64) -> Answer {
    Answer::refused(Refusal::new(number, place))
}

/// Asks the library, and compares it with the reference too.
struct Sampler {
    comparison: Comparison,
}

impl Sampler {
    fn new() -> Sampler {
        Sampler {
            comparison: Comparison::of_run(),
        }
    }

    /// With a sheet of eight places, all ones.
    fn ask(&mut self, call: Call, table: &[u8]) -> Outcome {
        self.comparison.compare_all(table);
        self.comparison.compare_served(call, table);
        self.comparison.compare(call, table, &[0xFF; 64], &[])
    }

    fn answer(&mut self, call: Call, words: &[u64]) -> Answer {
        self.ask(call, &bytes_of(words)).answer
    }
}

#[test]
fn accepted_tables() {
    let mut sampler = Sampler::new();
    for sample in accepted_samples() {
        let words = &sample.words;
        let shape = (sample.n << 32) + sample.node_count;
        assert_eq!(sampler.answer(Call::Check, words), Answer::result(shape));
        assert_eq!(
            sampler.answer(Call::Count, words),
            Answer::result(sample.count)
        );
        for setup in 0..1 << sample.n {
            let rank = sample.permitted.iter().position(|&x| x == setup);
            let tested = Answer::result(u64::from(rank.is_some()));
            assert_eq!(sampler.answer(Call::Test { setup }, words), tested);
            let ranked = rank.map_or(refused(13, 0), |rank| Answer::result(rank as u64));
            assert_eq!(sampler.answer(Call::Rank { setup }, words), ranked);
        }
        let setup = 1 << sample.n;
        for call in [Call::Test { setup }, Call::Rank { setup }] {
            assert_eq!(sampler.answer(call, words), refused(12, 0));
        }
        for rank in 0..=sample.count {
            let setup = sample.permitted.get(rank as usize);
            let unranked = setup.map_or(refused(14, 0), |&setup| Answer::result(setup));
            assert_eq!(sampler.answer(Call::Unrank { rank }, words), unranked);
        }
    }
    let full = sampler.answer(Call::Count, &[0xFC00000000000000]);
    assert_eq!(full, Answer::result(9223372036854775808));
}

#[test]
fn ranks_and_setups() {
    let mut sampler = Sampler::new();
    for (call, answer) in [
        (Call::Rank { setup: 7 }, Answer::result(5)),
        (Call::Rank { setup: 5 }, refused(13, 0)),
        (Call::Rank { setup: 8 }, refused(12, 0)),
        (Call::Unrank { rank: 4 }, Answer::result(4)),
        (Call::Unrank { rank: 5 }, Answer::result(7)),
        (Call::Unrank { rank: 6 }, refused(14, 0)),
    ] {
        assert_eq!(sampler.answer(call, &A), answer);
    }
    let empty = sampler.answer(Call::Unrank { rank: 0 }, &[0x0C00000000000001]);
    assert_eq!(empty, refused(14, 0));
}

#[test]
fn setups_ruled_out() {
    let mut sampler = Sampler::new();
    for (setup, answer) in [
        (5, Answer::found([2, 3, 4])),
        (6, Answer::found([2, 3, 7])),
        (4, Answer::found([0, 0, 0])),
        (7, Answer::found([0, 0, 0])),
        (8, refused(12, 0)),
    ] {
        assert_eq!(sampler.answer(Call::RuledOut { setup }, &A), answer);
    }
    for setup in 0..8 {
        let empty = sampler.answer(Call::RuledOut { setup }, &[0x0C00000000000001]);
        assert_eq!(empty, Answer::found([1, 0, 0]));
    }
}

/// Asks with a sheet of so many places for each word of the table and two more, all ones. Those that
/// are required come back blank, and with one of them or one byte too few nothing is answered.
fn ask_in(comparison: &mut Comparison, call: Call, table: &[u8], places_a_word: usize) -> Answer {
    let places = places_a_word * table.len() / 8;
    let sheet = vec![0xFF; 8 * places + 16];
    let outcome = comparison.compare(call, table, &sheet, &[]);
    let left = words_of(&outcome.sheet);
    assert!(left[..places].iter().all(|&place| place == 0));
    assert_eq!(left[places..], [u64::MAX; 2]);
    for len in [8 * places - 1, 8 * places - 8] {
        let short = comparison.compare(call, table, &sheet[..len], &[]);
        assert_eq!(short.answer, refused(10, 0));
        assert!(short.sheet.iter().all(|&byte| byte == 0xFF));
    }
    outcome.answer
}

fn count_on(comparison: &mut Comparison, table: &[u8], m: u64) -> Answer {
    ask_in(comparison, Call::CountOn { m }, table, 64)
}

#[test]
fn setups_by_settings_on() {
    let mut comparison = Comparison::of_run();
    let exactly = fs::read(files::path("../examples/tables/exactly31of63.table")).unwrap();
    let full = bytes_of(&[0xFC00000000000000]);
    let most = 916312070471295267;
    for (m, count) in (0..).zip([1, 3, 1, 1, 0]) {
        assert_eq!(
            count_on(&mut comparison, &bytes_of(&A), m),
            Answer::result(count)
        );
    }
    for (table, m, count) in [
        (&full, 0, 1),
        (&full, 31, most),
        (&full, 32, most),
        (&full, 63, 1),
        (&full, 64, 0),
        (&exactly, 30, 0),
        (&exactly, 31, most),
        (&exactly, 32, 0),
    ] {
        assert_eq!(count_on(&mut comparison, table, m), Answer::result(count));
    }
    for sample in accepted_samples() {
        for m in 0..=4 {
            let is_on = |setup: &&u64| u64::from(setup.count_ones()) == m;
            let count = sample.permitted.iter().filter(is_on).count() as u64;
            let answer = count_on(&mut comparison, &bytes_of(&sample.words), m);
            assert_eq!(answer, Answer::result(count));
        }
    }
}

fn closest(comparison: &mut Comparison, words: &[u64], setup: u64) -> Answer {
    let call = Call::Closest { setup };
    ask_in(comparison, call, &bytes_of(words), 2)
}

#[test]
fn closest_setups() {
    let mut comparison = Comparison::of_run();
    let opposite = a_with(0, 0x0C00000060000007);
    let empty = [0x0C00000000000001];
    for (words, setup, answer) in [
        (&A[..], 0, Answer::found([0, 0, 0])),
        (&A, 4, Answer::found([4, 0, 0])),
        (&A, 5, Answer::found([1, 1, 0])),
        (&A, 6, Answer::found([2, 1, 0])),
        (&A, 7, Answer::found([7, 0, 0])),
        (&A, 8, refused(12, 0)),
        (&A, u64::MAX, refused(12, 0)),
        (&opposite, 0, Answer::found([5, 2, 0])),
        (&opposite, 1, Answer::found([5, 1, 0])),
        (&opposite, 2, Answer::found([6, 1, 0])),
        (&opposite, 6, Answer::found([6, 0, 0])),
        (&opposite, 7, Answer::found([5, 1, 0])),
        (&empty, 0, refused(21, 0)),
        (&empty, 7, refused(21, 0)),
        (&empty, 8, refused(12, 0)),
        (&[0x0000000000000000], 0, Answer::found([0, 0, 0])),
        (&[0x0000000000000000], 1, refused(12, 0)),
        (&[0x0000000000000001], 0, refused(21, 0)),
    ] {
        assert_eq!(closest(&mut comparison, words, setup), answer);
    }
    for sample in accepted_samples() {
        for setup in 0..1 << sample.n {
            let answer = match closest_of(&sample.permitted, setup) {
                Some(closest) => Answer::found([closest, distance(closest, setup), 0]),
                None => refused(21, 0),
            };
            assert_eq!(closest(&mut comparison, &sample.words, setup), answer);
        }
    }
}

/// The sheet is as long as A needs it: 9 alone blanks it.
#[test]
fn refused_tables_with_longer_sheets() {
    let mut comparison = Comparison::of_run();
    let numbers = [0, 2, 5, 8, u64::MAX];
    let of_count = numbers.map(|m| (Call::CountOn { m }, 64 * 32));
    let of_closest = numbers.map(|setup| (Call::Closest { setup }, 2 * 32));
    for (call, needed) in of_count.into_iter().chain(of_closest) {
        for (table, number, place) in refused_samples() {
            let outcome = comparison.compare(call, &table, &vec![0xFF; needed + 3], &[]);
            assert_eq!(outcome.answer, refused(number, place));
            let (places, spare) = outcome.sheet.split_at(needed);
            let left = if number == 9 { 0 } else { 0xFF };
            assert!(places.iter().all(|&byte| byte == left));
            assert_eq!(spare, [0xFF; 3]);
        }
    }
}

#[test]
fn lists() {
    let mut comparison = Comparison::of_run();
    // The numbers, the items that the setups have room for, the answer, and the setups.
    let samples: [(&[u64], usize, Answer, &[u64]); 12] = [
        (&[0, 4, 5], 3, Answer::result(3), &[0, 4, 7]),
        (&[0, 4, 5], 4, Answer::result(3), &[0, 4, 7]),
        (&[0, 4, 5], 2, refused(18, 0), &[]),
        (&[5, 5], 2, Answer::result(2), &[7, 7]),
        (&[4, 3], 2, refused(17, 2), &[]),
        (&[6, 5], 2, refused(17, 2), &[]),
        (&[6, 5], 1, refused(18, 0), &[]),
        (&[0, 6], 2, refused(14, 2), &[]),
        (&[6, 6, 7], 3, refused(14, 1), &[]),
        (&[0, 6, 1, 0], 4, refused(17, 3), &[]),
        (&[], 0, Answer::result(0), &[]),
        (&[], 1, Answer::result(0), &[]),
    ];
    for (items, room, answer, setups) in samples {
        for spare in 0..8 {
            let ranks = [bytes_of(items), vec![0xFF; spare]].concat();
            let call = Call::UnrankList {
                ranks: List(&ranks),
            };
            let out = vec![0xFF; 8 * room];
            let outcome = comparison.compare(call, &bytes_of(&A), &[0xFF; 40], &out);
            assert_eq!(outcome.answer, answer);
            assert_eq!(words_of(&outcome.sheet), [0, 0, 0, 0, u64::MAX]);
            let mut left = setups.to_vec();
            left.resize(room, u64::MAX);
            assert_eq!(words_of(&outcome.out), left);
        }
    }
}

#[test]
fn parts() {
    let mut sampler = Sampler::new();
    let sizes_of_a: [&[u64]; 3] = [&[3, 3], &[1, 2, 1, 2], &[0, 1, 1, 1, 0, 1, 1, 1]];
    for sizes in sizes_of_a {
        let k = sizes.len() as u64;
        let mut start = 0;
        for (j, &size) in (0..).zip(sizes) {
            let answer = sampler.answer(Call::SpanStart { k, j }, &A);
            assert_eq!(answer, Answer::result(start));
            let answer = sampler.answer(Call::SpanSize { k, j }, &A);
            assert_eq!(answer, Answer::result(size));
            start += size;
        }
    }
    for (k, j, start, size) in [
        (65_535, 0, Answer::result(0), Answer::result(0)),
        (65_535, 65_534, Answer::result(5), Answer::result(1)),
        (65_535, 65_535, refused(15, 0), refused(15, 0)),
        (65_536, 0, refused(15, 0), refused(15, 0)),
    ] {
        assert_eq!(sampler.answer(Call::SpanStart { k, j }, &A), start);
        assert_eq!(sampler.answer(Call::SpanSize { k, j }, &A), size);
    }
}

#[test]
fn written_parts() {
    let mut comparison = Comparison::of_run();
    let table = bytes_of(&A);
    // Whatever is answered, the 3 + 512 places that are required come back blank.
    let mut write = |k, j, out_len| {
        let (sheet, out) = ([0xFF; 8 * 526], vec![0xFF; out_len]);
        let outcome = comparison.compare(Call::PartWrite { k, j }, &table, &sheet, &out);
        let places = words_of(&outcome.sheet);
        assert_eq!(places[..515], [0; 515]);
        assert_eq!(places[515..], [u64::MAX; 11]);
        outcome
    };
    for (j, words) in (0..).zip(HALVES_OF_A) {
        let outcome = write(2, j, 48);
        assert_eq!(outcome.answer, Answer::result(8 * words.len() as u64));
        assert_eq!(words_of(front(&outcome)), words);
        let outcome = write(2, j, 8 * words.len() - 1);
        assert_eq!(outcome.answer, refused(11, 0));
    }
    assert_eq!(words_of(front(&write(1, 0, 32))), A);
    for (k, j) in [(8, 0), (8, 4), (65_535, 65_533)] {
        assert_eq!(words_of(front(&write(k, j, 8))), [0x0C00000000000001]);
        assert_eq!(write(k, j, 7).answer, refused(11, 0));
    }
    for (k, j) in [(0, 0), (2, 2), (65_536, 0)] {
        assert_eq!(write(k, j, 0).answer, refused(15, 0));
    }
}

/// A call on two tables, with sheets of five places and all ones. The tables have three records
/// and pass, so their sheets and the places of the pair sheet come back blank.
fn combine(
    comparison: &mut Comparison,
    reading: &Reading,
    pairs: usize,
    out: usize,
) -> combination::Outcome {
    let lengths = Memories {
        sheets: [40; 2],
        pairs,
        out,
    };
    let outcome = comparison.combine(reading, &lengths.map(|len| vec![0xFF; len]));
    for sheet in &outcome.memories.sheets {
        assert_eq!(words_of(sheet), [0, 0, 0, 0, u64::MAX]);
    }
    let (places, spare) = outcome.memories.pairs.split_at(pairs / 8 * 8);
    assert!(places.iter().all(|&byte| byte == 0));
    assert!(spare.iter().all(|&byte| byte == 0xFF));
    outcome
}

/// Table A with itself has 6 pairs, of four places each: 192 bytes serve, 191 do not.
#[test]
fn a_with_itself() {
    let mut comparison = Comparison::of_run();
    let table = bytes_of(&A);
    for reading in [None, Some(&table[..])]
        .map(|second| Reading::all(&table, second))
        .as_flattened()
    {
        assert_eq!(reading.pairs, Some(6));
        let result: &[u64] = match reading.combination.operation {
            Operation::Join | Operation::Share => &A,
            Operation::Without => &[0x0C00000000000001],
        };
        for pairs in [192, 193, 199, 200, 223, 224] {
            let outcome = combine(&mut comparison, reading, pairs, 40);
            assert_eq!(outcome.answer, Answer::result(8 * result.len() as u64));
            assert_eq!(words_of(outcome.written()), result);
            let behind = &outcome.memories.out[outcome.written().len()..];
            assert!(behind.iter().all(|&byte| byte == 0xFF));
        }
        let short = combine(&mut comparison, reading, 192, 8 * result.len() - 1);
        assert_eq!(short.answer, refused(11, 0));
        assert!(short.memories.out.iter().all(|&byte| byte == 0xFF));
        for pairs in [191, 184, 160, 32, 31, 8, 7, 0] {
            let outcome = combine(&mut comparison, reading, pairs, 40);
            assert_eq!(outcome.answer, refused(20, 0));
        }
    }
}

/// One pair there always is: a pair sheet under 32 bytes is refused, whatever the tables are.
#[test]
fn one_pair() {
    let mut comparison = Comparison::of_run();
    for n in 0..=63 {
        let nothing = bytes_of(&[(n << 58) + 1]);
        for reading in &Reading::all(&nothing, None) {
            assert_eq!(reading.pairs, Some(1));
            for (pairs, answer) in [
                (0, refused(20, 0)),
                (31, refused(20, 0)),
                (32, Answer::result(8)),
            ] {
                let lengths = Memories {
                    pairs,
                    ..reading.needed()
                };
                let outcome = comparison.combine_lengths(reading, lengths);
                assert_eq!(outcome.answer, answer);
            }
        }
    }
}

/// The refused samples as the first table, as the second one, and as both.
#[test]
fn refused_tables_of_two() {
    let mut comparison = Comparison::of_run();
    let a = bytes_of(&A);
    let untouched = [u64::MAX; 5];
    let blank = [0, 0, 0, 0, u64::MAX];
    for (table, number, place) in refused_samples() {
        let own = if number == 9 { blank } else { untouched };
        for (first, second, named, left) in [
            (&table, Some(&a[..]), 1, [own, untouched]),
            (&a, Some(&table[..]), 2, [blank, own]),
            (&table, None, 1, [own, untouched]),
        ] {
            for reading in &Reading::all(first, second) {
                let lengths = Memories {
                    sheets: [40; 2],
                    pairs: 197,
                    out: 40,
                };
                let outcome = comparison.combine(reading, &lengths.map(|len| vec![0xFF; len]));
                let refusal = Refusal {
                    table: named,
                    ..Refusal::new(number, place)
                };
                assert_eq!(outcome.answer, Answer::refused(refusal));
                let memories = &outcome.memories;
                assert_eq!(
                    memories.sheets.each_ref().map(|sheet| words_of(sheet)),
                    left
                );
                assert_eq!(memories.pairs, [0xFF; 197]);
                assert_eq!(memories.out, [0xFF; 40]);
            }
        }
    }
}

#[test]
fn sheets_and_refused_tables() {
    let mut sampler = Sampler::new();
    for call in [
        Call::Check,
        Call::Count,
        Call::Test { setup: 7 },
        Call::Test { setup: 8 },
        Call::RuledOut { setup: 7 },
        Call::RuledOut { setup: 5 },
        Call::RuledOut { setup: 8 },
        Call::Rank { setup: 7 },
        Call::Rank { setup: 5 },
        Call::Rank { setup: 8 },
        Call::Unrank { rank: 5 },
        Call::Unrank { rank: 6 },
        Call::UnrankList { ranks: List(&[]) },
        Call::UnrankList {
            ranks: List(&[0; 8]),
        },
        Call::SpanStart { k: 4, j: 3 },
        Call::SpanSize { k: 4, j: 3 },
        Call::SpanSize { k: 4, j: 4 },
    ] {
        let places = words_of(&sampler.ask(call, &bytes_of(&A)).sheet);
        let left = match call {
            Call::Count => [1, 1, 2, 6],
            _ => [0; 4],
        };
        assert_eq!(places[..4], left);
        assert_eq!(places[4..], [u64::MAX; 4]);
        for (table, number, place) in refused_samples() {
            let outcome = sampler.ask(call, &table);
            assert_eq!(outcome.answer, refused(number, place));
            let first = if number == 9 { 0 } else { u64::MAX };
            assert_eq!(words_of(&outcome.sheet)[..4], [first; 4]);
            assert_eq!(words_of(&outcome.sheet)[4..], [u64::MAX; 4]);
        }
    }
}
