//! Equal contents, equal files: the tables of up to 3 settings that the library accepts, found by
//! trying records, are one for each of the 2^(2^n) sets of setups.

use std::collections::BTreeMap;

use setupbook_tests::call::{Call, Refusal};
use setupbook_tests::comparison::report;
use setupbook_tests::layout::{bytes_of, word};
use setupbook_tests::library::Lent;
use setupbook_tests::reading::Table;
use setupbook_tests::rng::Rng;
use setupbook_tests::tables::{self, TruthTable};

/// The search for accepted tables of n settings, of at most `most` records.
struct Search {
    n: u64,
    most: u64,
    rng: Rng,
    tried: u64,
    accepted: Vec<Vec<u64>>,
}

impl Search {
    fn refusal(&mut self, words: &[u64]) -> Option<Refusal> {
        self.tried += 1;
        let table = bytes_of(words);
        let sheet = vec![0; table.len()];
        let mut lent = Lent::new(0, &mut self.rng, &table, &sheet, &[]);
        lent.run(&mut self.rng, Call::Check).answer.refusal()
    }

    /// Tries the records behind the header as a table, with either root flag, and goes on with every
    /// record more. A record that is refused itself is refused in every longer table, and ends there.
    fn extend(&mut self, records: &[u64]) {
        let last = records.len() as u64;
        for flag in 0..2 {
            let words = [&[word(self.n, last, 2 * last + flag)], records].concat();
            match self.refusal(&words) {
                None => self.accepted.push(words),
                Some(refusal) if refusal.number == 9 => {}
                Some(_) => return,
            }
        }
        if last == self.most {
            return;
        }
        let edges = 2 * (last + 2);
        for height in 0..=self.n + 1 {
            for edge in 0..edges * edges {
                let record = word(height, edge / edges, edge % edges);
                self.extend(&[records, &[record]].concat());
            }
        }
    }
}

fn function_of(words: &[u64], n: u64) -> TruthTable {
    let table = Table::read(&bytes_of(words));
    (0..1 << n)
        .map(|setup| table.permits(table.root, setup))
        .collect()
}

#[test]
fn accepted_tables_are_one_for_each_set() {
    // With up to 2 settings the search ends by itself. A set of setups of 3 settings takes at most 4
    // records: 1, 2 and 1 of the three heights; tables of 5 are tried too.
    for (n, most) in [(0, 9), (1, 9), (2, 9), (3, 5)] {
        let mut search = Search {
            n,
            most,
            rng: Rng::new(n),
            tried: 0,
            accepted: Vec::new(),
        };
        search.extend(&[]);
        let of_sets: BTreeMap<_, _> = (0..1 << (1 << n))
            .map(|number| tables::numbered_truth_table(n, number))
            .map(|function| (function.clone(), tables::from_truth_table(&function)))
            .collect();
        let found: BTreeMap<_, _> = search
            .accepted
            .iter()
            .map(|words| (function_of(words, n), words.clone()))
            .collect();
        assert_eq!(search.accepted.len(), found.len(), "n = {n}");
        assert_eq!(found, of_sets, "n = {n}");
        let (tried, accepted) = (search.tried, found.len());
        report(&format!(
            "{n} settings: {accepted} of {tried} tables accepted"
        ));
    }
}
