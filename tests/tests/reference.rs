//! The reference itself: counts, also by how many settings are on, ranks, setups and closest setups
//! against a brute-force reader of all setups, Pascal's triangle against products, the tables of parts
//! against those made from truth tables, starts and sizes against adding up, and two tables made into
//! one, and loose tables made proper, against trying all setups.

use setupbook_tests::call::Call;
use setupbook_tests::combination::Operation;
use setupbook_tests::combined::{pair_count, Results};
use setupbook_tests::comparison::report;
use setupbook_tests::distance::closest_of;
use setupbook_tests::layout::bytes_of;
use setupbook_tests::loose;
use setupbook_tests::loosening::Loose;
use setupbook_tests::paper;
use setupbook_tests::part;
use setupbook_tests::pascal;
use setupbook_tests::reading::{Edge, Table};
use setupbook_tests::rng::Rng;
use setupbook_tests::tables;

/// Counts C and every place by trying all settings.
fn compare_counts(table: &Table) {
    let counts = table.counts();
    for k in 0..=table.node_count {
        let plain = Edge {
            node: k,
            flag: false,
        };
        let permitted = (0..1u64 << table.height(k))
            .filter(|&settings| table.permits(plain, settings))
            .count();
        assert_eq!(
            counts[k as usize], permitted as u128,
            "place {k} of {:016X?}",
            table.words
        );
    }
    let permitted = (0..1u64 << table.n)
        .filter(|&setup| table.permits(table.root, setup))
        .count();
    assert_eq!(
        table.total(&counts),
        permitted as u128,
        "{:016X?}",
        table.words
    );
}

/// Counts by how many settings are on, of each node and of the table, by trying all settings.
fn compare_rows(table: &Table) {
    let tried = |edge: Edge, height: u64| {
        let mut row = vec![0; height as usize + 1];
        for settings in (0..1u64 << height).filter(|&settings| table.permits(edge, settings)) {
            row[settings.count_ones() as usize] += 1;
        }
        row
    };
    for (node, row) in (0..).zip(table.rows()) {
        let plain = Edge { node, flag: false };
        let height = table.height(node);
        assert_eq!(row, tried(plain, height), "{node} of {:016X?}", table.words);
    }
    let row = tried(table.root, table.n);
    for (m, count) in (0..).zip(row.into_iter().chain([0])) {
        assert_eq!(table.count_on(m), count, "{m} of {:016X?}", table.words);
    }
}

/// Tries all setups in order: how many have been permitted before is the rank of the next.
fn compare_ranks(table: &Table) {
    let counts = table.counts();
    let mut rank = 0;
    for setup in 0..1u64 << table.n {
        let below = table.permitted_below(setup, &counts);
        assert_eq!(below, u128::from(rank), "{setup} of {:016X?}", table.words);
        if table.permits(table.root, setup) {
            let unranked = table.setup_number(rank, &counts);
            assert_eq!(unranked, setup, "number {rank} of {:016X?}", table.words);
            rank += 1;
        }
    }
    let all = table.permitted_below(1 << table.n, &counts);
    assert_eq!(all, u128::from(rank), "{:016X?}", table.words);
}

/// The closest setup by trying all setups: to each, or of more than 9 settings to some.
fn compare_closest(table: &Table) {
    let permitted = (0..1u64 << table.n).filter(|&setup| table.permits(table.root, setup));
    let permitted: Vec<u64> = permitted.collect();
    let step = (1 << table.n.saturating_sub(9)) | 1;
    for setup in (0..1 << table.n).step_by(step) {
        let closest = closest_of(&permitted, setup);
        let words = &table.words;
        assert_eq!(table.closest(setup), closest, "{setup} of {words:016X?}");
    }
}

fn compare_all(table: &Table) {
    compare_counts(table);
    compare_rows(table);
    compare_ranks(table);
    compare_closest(table);
}

#[test]
fn counts_and_ranks_are_those_of_brute_force() {
    let seed = Rng::seed_of_run();
    println!("seed {seed}");
    let mut rng = Rng::new(seed);
    let mut cases = 0;
    for n in 0..=12 {
        for _ in 0..40 {
            let most = rng.pick(&[0, 2, 8, 40]);
            let words = tables::random_accepted(&mut rng, n, most);
            compare_all(&Table::read(&bytes_of(&words)));
            cases += 1;
        }
    }
    for n in 0..=8 {
        for _ in 0..20 {
            let function = tables::random_truth_table(&mut rng, n);
            let table = Table::read(&bytes_of(&tables::from_truth_table(&function)));
            compare_all(&table);
            for (setup, permitted) in function.iter().enumerate() {
                assert_eq!(table.permits(table.root, setup as u64), *permitted);
            }
            cases += 1;
        }
    }
    report(&format!("brute force: {cases} tables"));
}

/// Each entry of a row from the one before it, factor by factor.
#[test]
fn the_triangle_is_that_of_products() {
    assert_eq!(pascal::triangle().len(), 64);
    for (g, row) in (0..).zip(pascal::triangle()) {
        let mut product: u128 = 1;
        for (i, &entry) in (0..=g).zip(row) {
            assert_eq!(u128::from(entry), product, "entry {i} of row {g}");
            product = product * (g - i) / (i + 1);
        }
        assert_eq!(product, 0, "row {g} is whole");
    }
}

#[test]
fn parts_are_those_of_truth_tables() {
    let mut rng = Rng::new(Rng::seed_of_run());
    for n in 0..=9 {
        for _ in 0..20 {
            let function = tables::random_truth_table(&mut rng, n);
            let table = Table::read(&bytes_of(&tables::from_truth_table(&function)));
            let counts = table.counts();
            for _ in 0..20 {
                let end = rng.below(table.total(&counts) as u64 + 1);
                let start = rng.below(end + 1);
                let part = part::of_ranks(&table, &counts, start.into()..end.into());
                let kept = tables::with_ranks(&function, start..end);
                assert_eq!(part, tables::from_truth_table(&kept));
            }
        }
    }
}

/// The sizes of k parts by adding up: each part has C / k setups, and adds C % k to what is saved;
/// as soon as k are saved, they are spent on one setup more.
fn sizes_by_adding(total: u128, k: u64) -> Vec<u128> {
    let k = u128::from(k);
    let mut saved = 0;
    let size = |_| {
        saved += total % k;
        let more = u128::from(saved >= k);
        saved -= k * more;
        total / k + more
    };
    (0..k).map(size).collect()
}

#[test]
fn spans_are_those_of_adding_up() {
    let mut rng = Rng::new(Rng::seed_of_run());
    let mut totals: Vec<u64> = vec![0, 1, 2, 6, 255, 256, 65_535, 65_536, (1 << 63) - 1, 1 << 63];
    totals.extend((0..10).map(|_| rng.below(1 << 63)));
    for total in totals.into_iter().map(u128::from) {
        for k in (1..=200).chain([1_000, 65_534, 65_535]) {
            let mut end = 0;
            for (j, size) in (0..k).zip(sizes_by_adding(total, k)) {
                assert_eq!(paper::span(total, k, j), (end, size), "part {j} of {k}");
                end += size;
            }
            assert_eq!(end, total, "{k} parts of {total}");
        }
    }
}

/// The edge below, at a setting of this height; a lower edge stays.
fn step(table: &Table, edge: Edge, height: u64, on: bool) -> Edge {
    if table.height(edge.node) < height {
        return edge;
    }
    let record = table.record(edge.node);
    let next = match on {
        true => record.then_edge,
        false => record.else_edge,
    };
    Edge {
        node: next.node,
        flag: edge.flag != next.flag,
    }
}

/// The number of pairs by following every setup from the roots to the sinks, and comparing each pair
/// with all that have been met.
fn pairs_by_walking(first: &Table, second: &Table) -> usize {
    let mut met: Vec<(Edge, Edge)> = Vec::new();
    for setup in 0..1u64 << first.n.max(second.n) {
        let (mut one, mut other) = (first.root, second.root);
        loop {
            if !met.contains(&(one, other)) {
                met.push((one, other));
            }
            let height = first.height(one.node).max(second.height(other.node));
            if height == 0 {
                break;
            }
            let on = (setup >> (height - 1)) & 1 == 1;
            one = step(first, one, height, on);
            other = step(second, other, height, on);
        }
    }
    met.len()
}

/// Accepted, and each setup permitted as the operation says of the two tables.
fn compare_results(first: &Table, second: &Table) {
    let mut results = Results::new(first, second);
    for operation in Operation::ALL {
        let bytes = bytes_of(&results.table(operation));
        assert!(paper::table_refusals(Call::Check, &bytes, usize::MAX).is_empty());
        let result = Table::read(&bytes);
        assert_eq!(result.n, first.n);
        for setup in 0..1u64 << first.n {
            let [one, other] = [first, second].map(|table| table.permits(table.root, setup));
            let permitted = operation.permits(one, other);
            assert_eq!(result.permits(result.root, setup), permitted);
        }
    }
}

#[test]
fn two_tables_are_those_of_brute_force() {
    let mut rng = Rng::new(Rng::seed_of_run());
    let mut cases = 0;
    for n in 0..=9 {
        for _ in 0..60 {
            let most = rng.pick(&[0, 2, 8, 20]);
            let [first, second] = [n, rng.below(n + 1)].map(|n| {
                let words = tables::random_accepted(&mut rng, n, most);
                Table::read(&bytes_of(&words))
            });
            assert_eq!(
                pair_count(&first, &second),
                pairs_by_walking(&first, &second)
            );
            assert_eq!(
                pair_count(&second, &first),
                pairs_by_walking(&second, &first)
            );
            // Settings that change nothing above make n equal.
            let second = Table { n, ..second };
            compare_results(&first, &second);
            compare_results(&second, &first);
            compare_results(&first, &first);
            cases += 1;
        }
    }
    report(&format!("two tables, by brute force: {cases} pairs"));
}

/// The counts of loose tables, and their proper tables against those made from their truth tables,
/// and against the whole as a part.
#[test]
fn proper_tables_are_those_of_brute_force() {
    let mut rng = Rng::new(Rng::seed_of_run());
    let mut cases = 0;
    for n in 0..=9 {
        for _ in 0..100 {
            let node_count = rng.pick(&[1, 3, 8, 40]);
            let mut loose = Loose::random(&mut rng, n, node_count);
            loose.shuffle(&mut rng);
            let table = Table::read(&bytes_of(&loose.words()));
            compare_counts(&table);
            let permits = |setup| table.permits(table.root, setup);
            let function = (0..1 << n).map(permits).collect();
            let proper = tables::from_truth_table(&function);
            assert_eq!(loose::proper(&table), proper);
            let counts = table.counts();
            let whole = 0..table.total(&counts);
            assert_eq!(part::of_ranks(&table, &counts, whole), proper);
            cases += 1;
        }
    }
    report(&format!("loose tables, by brute force: {cases}"));
}
