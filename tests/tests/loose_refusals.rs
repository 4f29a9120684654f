//! Loose tables made proper: what is refused, in which order, and what is left in the sheet and the
//! out memory, against the paper; where a fault has been put, the answer is known without it.

use setupbook_tests::call::{Answer, Call, Refusal};
use setupbook_tests::comparison::Comparison;
use setupbook_tests::damage;
use setupbook_tests::layout::{bytes_of, fields, word, EDGE_BITS};
use setupbook_tests::loosening::{loosened, Loose, MOST};
use setupbook_tests::rng::Rng;
use setupbook_tests::sheets;
use setupbook_tests::tables;
use setupbook_tests::tally::MAKE_PROPER;

#[test]
fn refusals_of_loose_tables_agree_with_the_paper() {
    let mut comparison = Comparison::of_run();
    comparison.run(&[
        ("one aimed fault", one_fault),
        ("several aimed faults", several_faults),
        ("root edges to nodes above N", root_above),
        ("edges to nodes above N", nodes_above),
        ("edges to heights not below", heights_not_below),
        ("edges to records that break rule 4", broken_heights),
        ("faults of unused records", unused_records),
        ("two faults at one record, or at two", two_faults),
        ("faults beside short memories", short_memories),
        ("random words and bytes", raw_tables),
        ("every length of a table", every_length),
        ("one call after another in the same memories", same_memories),
        ("faults in 65,535 records", wide_faults),
        ("a table of 65,536 records", too_many_records),
    ]);
    let tally = &comparison.tally;
    tally.assert_every_answer(&[MAKE_PROPER]);
    tally.assert_every_pair(&[MAKE_PROPER]);
    tally.assert_every_sheet(&[MAKE_PROPER]);
    tally.assert_calls(&[MAKE_PROPER], 60_000);
}

fn refused(number: u64, place: u64) -> Answer {
    Answer::refused(Refusal::new(number, place))
}

/// A loose table with two records or more, and with fewer settings than there can be.
fn loose_table(rng: &mut Rng) -> Vec<u64> {
    loop {
        let n = tables::any_settings(rng);
        let most = rng.pick(&[4, 12, 40]);
        let proper = tables::random_accepted(rng, n, most);
        let words = loosened(rng, &proper, 20);
        if words.len() > 2 && n < 63 {
            return words;
        }
    }
}

/// Any record.
fn any_record(rng: &mut Rng, words: &[u64]) -> u64 {
    rng.between(1, words.len() as u64 - 1)
}

/// Another edge in the place of a record's then-edge, or of its else-edge.
fn put_edge(rng: &mut Rng, words: &mut [u64], k: u64, edge: u64) {
    let record = &mut words[k as usize];
    let (height, then_edge, else_edge) = fields(*record);
    *record = match rng.chance(50) {
        true => word(height, edge, else_edge),
        false => word(height, then_edge, edge),
    };
}

fn put_height(words: &mut [u64], k: u64, height: u64) {
    let (_, then_edge, else_edge) = fields(words[k as usize]);
    words[k as usize] = word(height, then_edge, else_edge);
}

/// In memories that are long enough, and in some of any length.
fn compare(comparison: &mut Comparison, words: &[u64], answer: Answer) {
    let table = bytes_of(words);
    let found = comparison.compare_served(Call::MakeProper, &table);
    assert_eq!(found, answer);
    comparison.compare_any(Call::MakeProper, &table);
}

fn one_fault(comparison: &mut Comparison) {
    for refusal in [1, 2, 3, 4, 6] {
        for _ in 0..1_000 {
            let mut words = loose_table(&mut comparison.rng);
            damage::aim(&mut comparison.rng, &mut words, refusal);
            comparison.compare_served(Call::MakeProper, &bytes_of(&words));
            comparison.compare_any(Call::MakeProper, &bytes_of(&words));
        }
    }
}

fn several_faults(comparison: &mut Comparison) {
    for _ in 0..5_000 {
        let rng = &mut comparison.rng;
        let mut words = loose_table(rng);
        for _ in 0..rng.between(2, 4) {
            let refusal = rng.pick(&[1, 2, 3, 4, 4, 6, 6]);
            damage::aim(rng, &mut words, refusal);
        }
        let table = damage::damaged_bytes(rng, &words);
        comparison.compare_any(Call::MakeProper, &table);
        comparison.compare_any(Call::MakeProper, &table);
    }
}

/// The bits of a node number that none up to N has.
fn bits_above(words: &[u64]) -> impl Iterator<Item = u64> {
    let (_, node_count, _) = fields(words[0]);
    let bits = (0..28).map(|bit| 1 << bit);
    bits.filter(move |bit| *bit > node_count)
}

/// The next one, the greatest, and every one of whose bits all but one are those of a node.
fn root_above(comparison: &mut Comparison) {
    for _ in 0..100 {
        let mut words = loose_table(&mut comparison.rng);
        let (n, node_count, root) = fields(words[0]);
        let far = bits_above(&words).map(|bit| root + 2 * bit);
        let near = [2 * node_count + 2, 2 * node_count + 3, EDGE_BITS];
        for edge in Vec::from_iter(far.chain(near)) {
            words[0] = word(n, node_count, edge);
            compare(comparison, &words, refused(3, 0));
        }
    }
}

fn nodes_above(comparison: &mut Comparison) {
    for _ in 0..100 {
        let words = loose_table(&mut comparison.rng);
        let next = words.len() as u64;
        let far = bits_above(&words).map(|bit| bit + comparison.rng.below(next));
        let near = [next, next + 1, EDGE_BITS / 2];
        for node in Vec::from_iter(far.chain(near)) {
            let mut words = words.clone();
            let k = any_record(&mut comparison.rng, &words);
            let flag = comparison.rng.below(2);
            put_edge(&mut comparison.rng, &mut words, k, 2 * node + flag);
            compare(comparison, &words, refused(6, k));
        }
    }
}

/// An edge to a record before or behind, of greater or equal height, or to the record itself.
fn heights_not_below(comparison: &mut Comparison) {
    let mut met = [[0; 2]; 2];
    while met.as_flattened().iter().any(|&times| times < 300) {
        let rng = &mut comparison.rng;
        let mut words = loose_table(rng);
        let [k, node] = [(); 2].map(|()| any_record(rng, &words));
        let [height, other] = [k, node].map(|k| fields(words[k as usize]).0);
        if other < height {
            continue;
        }
        if k != node {
            met[usize::from(node > k)][usize::from(other > height)] += 1;
        }
        let flag = rng.below(2);
        put_edge(rng, &mut words, k, 2 * node + flag);
        compare(comparison, &words, refused(6, k));
    }
}

/// The lowest record that has an edge to this node.
fn lowest_naming(words: &[u64], node: u64) -> Option<u64> {
    let names = |&k: &u64| {
        let (_, then_edge, else_edge) = fields(words[k as usize]);
        then_edge / 2 == node || else_edge / 2 == node
    };
    (1..words.len() as u64).find(names)
}

/// A record breaks rule 4, and an earlier one has an edge to it. With height 0 that edge is in order.
/// With a height above n it is not, and is refused first.
fn broken_heights(comparison: &mut Comparison) {
    for _ in 0..1_000 {
        let rng = &mut comparison.rng;
        let mut words = loose_table(rng);
        let last = words.len() as u64 - 1;
        let node = rng.between(2, last);
        let k = rng.between(1, node - 1);
        let flag = rng.below(2);
        put_edge(rng, &mut words, k, 2 * node + flag);
        let lowest = lowest_naming(&words, node).unwrap();
        let (n, ..) = fields(words[0]);
        let above = rng.between(n + 1, 63);
        for (height, answer) in [(0, refused(4, node)), (above, refused(6, lowest))] {
            put_height(&mut words, node, height);
            compare(comparison, &words, answer);
        }
    }
}

/// One that nothing names, and one that only an unused one names.
fn unused_records(comparison: &mut Comparison) {
    for _ in 0..500 {
        let rng = &mut comparison.rng;
        let mut loose = Loose::of(&loose_table(rng));
        let more = rng.between(1, 8);
        loose.add_unused(rng, more as usize);
        let words = loose.words();
        let last = words.len() as u64 - 1;
        let k = rng.between(last + 1 - more, last);
        let mut faulty = words.clone();
        put_height(&mut faulty, k, 0);
        compare(comparison, &faulty, refused(4, k));
        let mut faulty = words.clone();
        put_edge(&mut comparison.rng, &mut faulty, k, 2 * last + 2);
        compare(comparison, &faulty, refused(6, k));
    }
}

/// 4 comes before 6 at one record, and either at one record before the other at a later one.
fn two_faults(comparison: &mut Comparison) {
    for _ in 0..500 {
        let words = loose_table(&mut comparison.rng);
        let last = words.len() as u64 - 1;
        let k = comparison.rng.between(1, last - 1);
        let later = comparison.rng.between(k + 1, last);
        for (of_4, of_6, number) in [(k, k, 4), (k, later, 4), (later, k, 6)] {
            let mut words = words.clone();
            put_height(&mut words, of_4, 0);
            let node = comparison.rng.pick(&[of_6, last + 1]);
            put_edge(&mut comparison.rng, &mut words, of_6, 2 * node);
            compare(comparison, &words, refused(number, k));
        }
    }
}

/// 3 comes before 10, which comes before 4 and 6; none of them changes a byte. 11 comes last.
fn short_memories(comparison: &mut Comparison) {
    for round in 0..300 {
        let mut words = loose_table(&mut comparison.rng);
        let k = any_record(&mut comparison.rng, &words);
        let (n, node_count, _) = fields(words[0]);
        let (fault, is_before_10) = match round % 4 {
            0 => (refused(3, 0), true),
            1 => (refused(4, k), false),
            2 => (refused(6, k), false),
            _ => (refused(11, 0), false),
        };
        match fault.status {
            3 => words[0] = word(n, node_count, 2 * node_count + 2),
            4 => put_height(&mut words, k, 0),
            6 => put_edge(&mut comparison.rng, &mut words, k, 2 * k),
            _ => {}
        }
        let table = bytes_of(&words);
        let needed = sheets::needed(Call::MakeProper, &table);
        for sheet_len in sheets::border_lengths(needed) {
            let sheet = sheets::filling(&mut comparison.rng, sheet_len);
            let out = sheets::filling(&mut comparison.rng, 7);
            let outcome = comparison.compare(Call::MakeProper, &table, &sheet, &out);
            let answer = match sheet_len < needed && !is_before_10 {
                true => refused(10, 0),
                false => fault,
            };
            assert_eq!(outcome.answer, answer);
            assert_eq!(outcome.out, out);
            assert_eq!(outcome.sheet == sheet, answer != refused(11, 0));
        }
    }
}

fn raw_tables(comparison: &mut Comparison) {
    for _ in 0..2_000 {
        let words = damage::small_fields(&mut comparison.rng);
        comparison.compare_any(Call::MakeProper, &bytes_of(&words));
        let words = damage::random_words(&mut comparison.rng);
        let table = damage::damaged_bytes(&mut comparison.rng, &words);
        comparison.compare_any(Call::MakeProper, &table);
        let len = comparison.rng.index(40);
        let table = comparison.rng.bytes(len);
        comparison.compare_any(Call::MakeProper, &table);
        let table = damage::any_faults(&mut comparison.rng);
        comparison.compare_any(Call::MakeProper, &table);
    }
}

/// Only the whole table is served. With more bytes the out memory may be too short, too.
fn every_length(comparison: &mut Comparison) {
    for _ in 0..30 {
        let words = loose_table(&mut comparison.rng);
        let whole = 8 * words.len();
        let mut table = bytes_of(&words);
        table.extend(comparison.rng.bytes(17));
        for len in 0..=table.len() {
            let answer = comparison.compare_served(Call::MakeProper, &table[..len]);
            assert_eq!(answer == refused(1, 0), len != whole);
            comparison.compare_any(Call::MakeProper, &table[..len]);
        }
        let needed = sheets::needed(Call::MakeProper, &table);
        comparison.compare_lengths(Call::MakeProper, &table, needed, 0);
    }
}

/// What one call leaves is what the next one finds.
fn same_memories(comparison: &mut Comparison) {
    for _ in 0..500 {
        let rng = &mut comparison.rng;
        let mut words = loose_table(rng);
        let refusal = rng.pick(&[3, 4, 6]);
        damage::aim(rng, &mut words, refusal);
        let table = bytes_of(&words);
        let sheet_len = sheets::random_length(rng, sheets::needed(Call::MakeProper, &table));
        let sheet = sheets::filling(rng, sheet_len);
        let out_len = rng.index(table.len());
        let out = sheets::filling(rng, out_len);
        let mut lent = comparison.lend(&table, &sheet, &out);
        for call in [Call::MakeProper, Call::Count, Call::MakeProper] {
            comparison.compare_in(call, &mut lent);
        }
    }
}

/// Node 65,536 has the lowest sixteen bits of the sink, and the next ones those of nodes.
fn wide_faults(comparison: &mut Comparison) {
    let proper = tables::wide(&mut comparison.rng, 40, MOST, 5_000);
    let mut loose = Loose::of(&proper);
    loose.shuffle(&mut comparison.rng);
    let words = loose.words();
    let (n, _, root) = fields(words[0]);
    let last = MOST as u64;
    for k in [1, last / 2, last] {
        for node in [last + 1, last + 2, last + 1 + root / 2, (1 << 27) + 1] {
            let mut words = words.clone();
            put_edge(&mut comparison.rng, &mut words, k, 2 * node);
            let answer = comparison.compare_served(Call::MakeProper, &bytes_of(&words));
            assert_eq!(answer, refused(6, k));
        }
        let mut words = words.clone();
        put_height(&mut words, k, 0);
        let answer = comparison.compare_served(Call::MakeProper, &bytes_of(&words));
        assert_eq!(answer, refused(4, k));
        words[0] = word(n, last, root + 2 * (last + 1));
        let answer = comparison.compare_served(Call::MakeProper, &bytes_of(&words));
        assert_eq!(answer, refused(3, 0));
    }
}

/// Refusal 2, whatever the memories are, and whether or not the proper table would have fewer.
fn too_many_records(comparison: &mut Comparison) {
    let proper = tables::wide(&mut comparison.rng, 40, MOST, 5_000);
    let mut repeated = Loose::of(&proper);
    repeated.repeat(&mut comparison.rng, 1);
    repeated.shuffle(&mut comparison.rng);
    let different = tables::wide(&mut comparison.rng, 40, MOST + 1, 5_000);
    for words in [repeated.words(), different] {
        let table = bytes_of(&words);
        assert_eq!(table.len(), 8 * (MOST + 2));
        for (sheet_len, out_len) in [
            (sheets::needed(Call::MakeProper, &table), table.len()),
            (100, 100),
        ] {
            let outcome = comparison.compare_lengths(Call::MakeProper, &table, sheet_len, out_len);
            assert_eq!(outcome.answer, refused(2, 0));
        }
    }
}
