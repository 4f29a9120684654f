//! The library against the paper: answers and every byte of sheet and out memory, all operations
//! over tables of every kind.

use setupbook_tests::call::{Call, List, Refusal};
use setupbook_tests::comparison::{random_part, Comparison};
use setupbook_tests::damage::{self, Astray};
use setupbook_tests::layout::{bytes_of, fields, word};
use setupbook_tests::paper;
use setupbook_tests::sheets;
use setupbook_tests::tables::{self, TruthTable};
use setupbook_tests::tally::ONE_TABLE;

#[test]
fn library_agrees_with_the_paper() {
    let mut comparison = Comparison::of_run();
    comparison.run(&[
        ("all functions of up to 3 settings", all_small_functions),
        ("random functions of 4 to 8 settings", random_functions),
        ("tables without records", constants),
        ("one record a height", chains),
        ("random accepted tables", accepted),
        ("sheets of every length", every_sheet),
        ("one call after another in the same memories", same_memories),
        ("records that nothing names", unnamed),
        ("one aimed fault", one_fault),
        ("several aimed faults", several_faults),
        ("several faults at one record", faulty_record),
        ("rules 5 and 6 broken at one record", edge_before_order),
        ("nothing permitted, and another fault", none_permitted),
        ("turned bits", turned_bits),
        ("small random fields", small_fields),
        ("random words and bytes", random_bytes),
        ("every length of a table", every_length),
        ("up to 65,535 records and above", wide),
        ("parts of more than 65,535 records", wide_parts),
    ]);
    comparison.tally.assert_every_answer(&ONE_TABLE);
    comparison.tally.assert_every_pair(&ONE_TABLE);
    comparison.tally.assert_every_sheet(&ONE_TABLE);
    comparison.tally.assert_calls(&ONE_TABLE, 20_000);
    assert!(comparison.tally.cases >= 500_000);
}

/// Compares a table made from a truth table, and its answers with the truth table itself.
fn compare_function(comparison: &mut Comparison, function: &TruthTable) {
    let words = tables::from_truth_table(function);
    let table = bytes_of(&words);
    let (n, node_count, _) = fields(words[0]);
    assert_eq!(
        comparison.compare_served(Call::Check, &table).value(),
        (n << 32) + node_count
    );
    let permitted = function.iter().filter(|permitted| **permitted).count() as u64;
    assert_eq!(
        comparison.compare_served(Call::Count, &table).value(),
        permitted
    );
    for (setup, permitted) in function.iter().enumerate() {
        let answer = comparison.compare_served(
            Call::Test {
                setup: setup as u64,
            },
            &table,
        );
        assert_eq!(answer.value(), u64::from(*permitted));
    }
    comparison.compare_all(&table);
}

fn all_small_functions(comparison: &mut Comparison) {
    for function in tables::small_truth_tables() {
        compare_function(comparison, &function);
    }
}

fn random_functions(comparison: &mut Comparison) {
    for n in 4..=8 {
        for _ in 0..30 {
            let function = tables::random_truth_table(&mut comparison.rng, n);
            compare_function(comparison, &function);
        }
    }
}

fn constants(comparison: &mut Comparison) {
    for n in 0..=63 {
        for permitted in [false, true] {
            for _ in 0..3 {
                comparison.compare_words(&tables::constant(n, permitted));
            }
        }
    }
}

fn chains(comparison: &mut Comparison) {
    for n in 1..=63 {
        for (only_one, root_flag) in [(false, 0), (false, 1), (true, 0), (true, 1)] {
            let table = bytes_of(&tables::chain(n, only_one, root_flag));
            let few = if only_one { 1 } else { (1 << n) - 1 };
            let count = if root_flag == 1 { (1 << n) - few } else { few };
            assert_eq!(
                comparison.compare_served(Call::Count, &table).value(),
                count
            );
            comparison.compare_all(&table);
        }
    }
}

fn accepted(comparison: &mut Comparison) {
    for _ in 0..1500 {
        let words = tables::of_any_size(&mut comparison.rng);
        let table = bytes_of(&words);
        let answer = comparison.compare_served(Call::Check, &table);
        assert!(
            answer.refusal().is_none(),
            "a table made to be accepted: {answer:?}"
        );
        comparison.compare_all(&table);
    }
}

fn every_sheet(comparison: &mut Comparison) {
    for round in 0..60 {
        let mut words = tables::of_any_size(&mut comparison.rng);
        if round % 3 == 2 {
            let refusal = comparison.rng.between(3, 9);
            damage::aim(&mut comparison.rng, &mut words, refusal);
        }
        let table = bytes_of(&words);
        let (n, ..) = fields(words[0]);
        let setup = comparison.rng.below(1 << n);
        let rank = comparison.rng.below(1 << n);
        let (k, j) = random_part(&mut comparison.rng);
        let [equal, falling] = [[rank, rank], [1, 0]].map(|items| bytes_of(&items));
        for call in [
            Call::Check,
            Call::Count,
            Call::CountOn { m: setup % (n + 1) },
            Call::CountOn { m: n + 1 },
            Call::Test { setup },
            Call::Test { setup: 1 << n },
            Call::RuledOut { setup },
            Call::RuledOut { setup: 1 << n },
            Call::Closest { setup },
            Call::Closest { setup: 1 << n },
            Call::Rank { setup },
            Call::Rank { setup: 1 << n },
            Call::Unrank { rank },
            Call::UnrankList {
                ranks: List(&equal),
            },
            Call::UnrankList {
                ranks: List(&falling),
            },
            Call::SpanStart { k, j },
            Call::SpanSize { k, j },
            Call::PartWrite { k, j },
            Call::MakeProper,
        ] {
            let out = vec![0x55; paper::out_needed(call, &table)];
            for len in sheets::border_lengths(sheets::needed(call, &table)) {
                let filling = sheets::filling(&mut comparison.rng, len);
                for sheet in [vec![0; len], vec![0xFF; len], filling] {
                    comparison.compare(call, &table, &sheet, &out);
                }
            }
        }
    }
}

fn same_memories(comparison: &mut Comparison) {
    for round in 0..200 {
        let mut words = tables::of_any_size(&mut comparison.rng);
        if round % 4 == 3 {
            damage::aim(&mut comparison.rng, &mut words, 9);
        }
        comparison.compare_in_turn(&bytes_of(&words));
    }
}

fn unnamed(comparison: &mut Comparison) {
    for _ in 0..600 {
        let rng = &mut comparison.rng;
        let n = rng.between(2, 63);
        let most = rng.pick(&[4, 8, 30, 200]);
        let plan = tables::random_plan(rng, n, most);
        let words = tables::from_plan(rng, n, &plan, false);
        comparison.compare_words(&words);
    }
}

fn one_fault(comparison: &mut Comparison) {
    for refusal in 1..=9 {
        for _ in 0..250 {
            let mut words = tables::of_any_size(&mut comparison.rng);
            damage::aim(&mut comparison.rng, &mut words, refusal);
            comparison.compare_words(&words);
        }
    }
}

fn several_faults(comparison: &mut Comparison) {
    for _ in 0..2000 {
        let rng = &mut comparison.rng;
        let mut words = tables::of_any_size(rng);
        for _ in 0..rng.between(2, 4) {
            // Faults of the records more often than those of the header, which hide them.
            let refusal = if rng.chance(85) {
                rng.between(4, 9)
            } else {
                rng.between(1, 3)
            };
            damage::aim(rng, &mut words, refusal);
        }
        let table = damage::damaged_bytes(rng, &words);
        comparison.compare_all(&table);
    }
}

fn faulty_record(comparison: &mut Comparison) {
    for set in 1..32u64 {
        let rules: Vec<u64> = (4..=8)
            .filter(|rule| (set >> (rule - 4)) & 1 == 1)
            .collect();
        for _ in 0..30 {
            let mut words = tables::of_any_size(&mut comparison.rng);
            damage::break_last_record(&mut comparison.rng, &mut words, &rules);
            comparison.compare_words(&words);
        }
    }
}

fn edge_before_order(comparison: &mut Comparison) {
    for astray in [
        Astray::NotBelow,
        Astray::ToGreaterHeight,
        Astray::ToEqualHeight,
    ] {
        let mut tables = 0;
        while tables < 300 {
            let mut words = tables::of_any_size(&mut comparison.rng);
            let Some(place) = damage::fall_astray(&mut comparison.rng, &mut words, astray) else {
                continue;
            };
            let table = bytes_of(&words);
            let answer = comparison.compare_served(Call::Check, &table);
            assert_eq!(answer.refusal(), Some(Refusal::new(6, place)));
            comparison.compare_all(&table);
            tables += 1;
        }
    }
}

/// Refusal 21 beside the others that leave it settled that nothing is permitted.
fn none_permitted(comparison: &mut Comparison) {
    for n in 2..=63 {
        let empty = bytes_of(&tables::constant(n, false));
        for (table, number) in [
            ([&empty[..], &[0]].concat(), 1),
            (bytes_of(&[word(n, 1, 1), word(1, 0, 1)]), 3),
            // The last record has equal edges.
            (bytes_of(&[word(n, 2, 5), word(2, 0, 1), word(1, 0, 0)]), 5),
            (bytes_of(&[word(n, 1, 2), word(1, 1, 1)]), 7),
            (bytes_of(&[word(n, 1, 3), word(1, 0, 0)]), 8),
            (empty, 21),
        ] {
            let setup = comparison.rng.below(1 << n);
            let answer = comparison.compare_served(Call::Closest { setup }, &table);
            assert_eq!(answer.status, number);
            comparison.compare_all(&table);
        }
    }
}

fn turned_bits(comparison: &mut Comparison) {
    for _ in 0..1500 {
        let mut words = tables::of_any_size(&mut comparison.rng);
        damage::flip_bits(&mut comparison.rng, &mut words);
        comparison.compare_words(&words);
    }
}

fn small_fields(comparison: &mut Comparison) {
    for _ in 0..4000 {
        let words = damage::small_fields(&mut comparison.rng);
        comparison.compare_words(&words);
    }
}

fn random_bytes(comparison: &mut Comparison) {
    for _ in 0..1000 {
        let words = damage::random_words(&mut comparison.rng);
        let table = damage::damaged_bytes(&mut comparison.rng, &words);
        comparison.compare_all(&table);
        let len = comparison.rng.index(40);
        let table = comparison.rng.bytes(len);
        comparison.compare_all(&table);
    }
}

fn every_length(comparison: &mut Comparison) {
    for _ in 0..8 {
        let words = tables::random_accepted(&mut comparison.rng, 9, 6);
        let mut table = bytes_of(&words);
        table.extend(comparison.rng.bytes(17));
        for len in 0..=table.len() {
            comparison.compare_all(&table[..len]);
        }
    }
}

fn wide(comparison: &mut Comparison) {
    for words in tables::wide_ones(&mut comparison.rng) {
        let table = bytes_of(&words);
        let (n, node_count, _) = fields(words[0]);
        let answer = comparison.compare_served(Call::Check, &table);
        assert_eq!(answer.value(), (n << 32) + node_count);
        comparison.compare_all(&table);
        comparison.compare_lengths(Call::Count, &table, table.len() - 1, 0);

        // A fault in the last record, after all others have passed; or a record not named.
        for refusal in 4..=9 {
            let mut words = words.clone();
            match refusal {
                9 => damage::aim(&mut comparison.rng, &mut words, 9),
                _ => damage::break_last_record(&mut comparison.rng, &mut words, &[refusal]),
            }
            comparison.compare_served(Call::Check, &bytes_of(&words));
        }
    }
    // One record too many, at the length that fits.
    let words = tables::wide(&mut comparison.rng, 40, 65_536, 5_000);
    assert_eq!(words[0], word(40, 65_536, fields(words[0]).2));
    comparison.compare_words(&words);
    for _ in 0..20 {
        let setup = comparison.rng.below(1 << 40);
        comparison.compare_served(Call::Rank { setup }, &bytes_of(&words));
    }
    for k in [1, 65_535] {
        let j = comparison.rng.below(k);
        comparison.compare_lengths(Call::PartWrite { k, j }, &bytes_of(&words), 0, 0);
    }
    for call in [Call::MakeProper, Call::CountOn { m: 0 }] {
        comparison.compare_lengths(call, &bytes_of(&words), 0, 0);
    }
    // With root edge 1 nothing is permitted.
    let none = [&[word(40, 65_536, 1)], &words[1..]].concat();
    for setup in [0, 1 << 40] {
        comparison.compare_lengths(Call::Closest { setup }, &bytes_of(&none), 0, 0);
    }
}

/// Refusal 16 beside every other one that leaves it settled which setups are permitted.
fn wide_parts(comparison: &mut Comparison) {
    let wide = tables::wide(&mut comparison.rng, 40, 65_530, 5_000);
    let wide = tables::with_settings_above(wide, 23);
    // The bounds of one of 2^10 parts need a record in each of the ten topmost heights.
    let k = 1 << 10;
    for refusal in [0, 1, 3, 5, 7, 8, 9, 10] {
        let mut words = wide.clone();
        damage::fault_on_top(&mut words, refusal);
        let mut table = bytes_of(&words);
        if refusal == 1 {
            table.push(0);
        }
        let j = comparison.rng.below(k);
        let call = Call::PartWrite { k, j };
        let needed = sheets::needed(call, &table);
        let sheet_lens = match refusal {
            0 => vec![needed, needed + 5, needed + 27],
            10 => vec![needed - 1],
            _ => vec![needed],
        };
        for sheet_len in sheet_lens {
            let sheet = sheets::filling(&mut comparison.rng, sheet_len);
            let out_len = comparison.rng.pick(&[0, 8 * 65_536]);
            comparison.compare(call, &table, &sheet, &vec![0x55; out_len]);
        }
    }
}
