//! Runs a call in the library and after the paper and compares answer, sheet and out memory.

use std::time::Instant;

use crate::call::{Answer, Call, List, Outcome};
use crate::layout::{bytes_of, settings};
use crate::library::Lent;
use crate::lists;
use crate::paper;
use crate::reading::Table;
use crate::rng::Rng;
use crate::sheets;
use crate::tally::{name_of, Sheet, Tally};

/// Compares cases of one kind.
pub type Group = fn(&mut Comparison);

pub struct Comparison {
    pub(crate) seed: u64,
    pub rng: Rng,
    /// For the places and guards of lent memory.
    pub(crate) lending: Rng,
    pub tally: Tally,
}

impl Comparison {
    /// By the seed of the test run, which is printed.
    pub fn of_run() -> Comparison {
        let seed = Rng::seed_of_run();
        println!("seed {seed}");
        Comparison {
            seed,
            rng: Rng::new(seed),
            lending: Rng::new(!seed),
            tally: Tally::default(),
        }
    }

    /// Runs the groups and prints for each the number of cases and the time.
    pub fn run(&mut self, groups: &[(&str, Group)]) {
        for (name, group) in groups {
            let (before, start) = (self.tally.cases, Instant::now());
            group(self);
            println!(
                "{name}: {} cases, {} ms",
                self.tally.cases - before,
                start.elapsed().as_millis()
            );
        }
        report(&format!("seed {}: {}", self.seed, self.tally.summary()));
    }

    /// Memory with this content, for any number of calls.
    pub fn lend(&mut self, table: &[u8], sheet: &[u8], out: &[u8]) -> Lent {
        Lent::new(self.seed, &mut self.lending, table, sheet, out)
    }

    /// One case, in memory of its own. Gives back what the library has done.
    pub fn compare(&mut self, call: Call, table: &[u8], sheet: &[u8], out: &[u8]) -> Outcome {
        let mut lent = self.lend(table, sheet, out);
        self.compare_in(call, &mut lent)
    }

    /// One case, in memory that other calls may have used.
    pub fn compare_in(&mut self, call: Call, lent: &mut Lent) -> Outcome {
        let expected = paper::expect(call, lent.table(), lent.sheet(), lent.out());
        let filled = sheets::filled_length(lent.sheet(), sheets::needed(call, lent.table()));
        let found = lent.run(&mut self.lending, call);
        if found != expected.outcome {
            panic!(
                "{}\n{}",
                lent.describe(call),
                difference(&expected.outcome, &found)
            );
        }
        let filled = filled.map(|length| (Sheet::Of(0), length));
        self.tally.note(name_of(call), &expected.refusals, filled);
        self.tally.empty_between += u64::from(expected.empty_between);
        self.tally.improper += u64::from(expected.improper);
        found
    }

    /// A call with a sheet and an out memory of random lengths and contents.
    pub fn compare_any(&mut self, call: Call, table: &[u8]) -> Answer {
        let sheet_len = sheets::random_length(&mut self.rng, sheets::needed(call, table));
        let out_len = sheets::random_length(&mut self.rng, paper::out_needed(call, table));
        self.compare_lengths(call, table, sheet_len, out_len).answer
    }

    /// A call with a sheet and an out memory that are long enough.
    pub fn compare_served(&mut self, call: Call, table: &[u8]) -> Answer {
        self.outcome_served(call, table).answer
    }

    /// The same, with what it leaves behind.
    pub fn outcome_served(&mut self, call: Call, table: &[u8]) -> Outcome {
        let sheet_len = sheets::served_length(&mut self.rng, sheets::needed(call, table));
        let out_len = sheets::served_length(&mut self.rng, paper::out_needed(call, table));
        self.compare_lengths(call, table, sheet_len, out_len)
    }

    /// Writes a part, with a sheet and an out memory that are just long enough. Gives back its
    /// table.
    pub fn written_part(&mut self, table: &[u8], k: u64, j: u64) -> Vec<u8> {
        let call = Call::PartWrite { k, j };
        let out_len = paper::out_needed(call, table);
        let outcome = self.compare_lengths(call, table, sheets::needed(call, table), out_len);
        front(&outcome).to_vec()
    }

    /// Makes a table proper, with a sheet and an out memory that are long enough. Gives back what
    /// is written: an accepted table, by the paper.
    pub fn made_proper(&mut self, table: &[u8]) -> Vec<u8> {
        let written = front(&self.outcome_served(Call::MakeProper, table)).to_vec();
        let refusals = paper::table_refusals(Call::Check, &written, usize::MAX);
        assert!(refusals.is_empty(), "{refusals:?}");
        written
    }

    /// Any of the `count` setups that a table permits, by its number; none, if it permits none.
    pub fn any_permitted(&mut self, table: &[u8], count: u64) -> Option<u64> {
        let rank = (count > 0).then(|| self.rng.below(count))?;
        Some(self.compare_served(Call::Unrank { rank }, table).value())
    }

    /// A call with a filled sheet of this length, of which it needs so many bytes. These come back
    /// blank, unless it is refused by 1 to 8 or 10, and nothing else has changed.
    pub fn compare_sheet(&mut self, call: Call, table: &[u8], len: usize, needed: usize) {
        let sheet = sheets::filling(&mut self.rng, len);
        let outcome = self.compare(call, table, &sheet, &[]);
        let number = outcome.answer.status;
        assert_eq!(number == 10, len < needed);
        let blank = match number {
            1..=8 | 10 => 0,
            _ => needed,
        };
        assert!(outcome.sheet[..blank].iter().all(|&byte| byte == 0));
        assert!(outcome.sheet[blank..] == sheet[blank..]);
    }

    /// A call with a sheet and an out memory of these lengths and of random contents.
    pub fn compare_lengths(
        &mut self,
        call: Call,
        table: &[u8],
        sheet_len: usize,
        out_len: usize,
    ) -> Outcome {
        let sheet = sheets::random_content(&mut self.rng, sheet_len);
        let out = sheets::random_content(&mut self.rng, out_len);
        self.compare(call, table, &sheet, &out)
    }

    /// All operations, with setups, ranks, lists and parts at the borders and random ones, each
    /// with memories of its own.
    pub fn compare_all(&mut self, table: &[u8]) {
        self.each_call(table, |comparison, call| {
            comparison.compare_any(call, table);
        });
    }

    /// The same, all in the same memories and each after a count, which leaves the counts there.
    pub fn compare_in_turn(&mut self, table: &[u8]) {
        // No call needs a longer sheet than one of these.
        let [one, other] =
            [Call::MakeProper, Call::CountOn { m: 0 }].map(|call| sheets::needed(call, table));
        let sheet_len = sheets::served_length(&mut self.rng, one.max(other));
        let sheet = sheets::filling(&mut self.rng, sheet_len);
        let out = sheets::filling(&mut self.rng, table.len() + 100);
        let mut lent = self.lend(table, &sheet, &out);
        self.each_call(table, |comparison, call| {
            comparison.compare_in(Call::Count, &mut lent);
            comparison.compare_in(call, &mut lent);
        });
    }

    /// Makes calls of all operations, with numbers at the borders and random ones.
    fn each_call(&mut self, table: &[u8], mut make: impl FnMut(&mut Comparison, Call)) {
        let mut calls = vec![Call::Check, Call::Count];
        calls.extend([Call::MakeProper; 2]);
        calls.extend(self.numbers_on(table).map(|m| Call::CountOn { m }));
        for setup in self.setups(table) {
            calls.extend([
                Call::Test { setup },
                Call::RuledOut { setup },
                Call::Closest { setup },
                Call::Rank { setup },
            ]);
        }
        let ranks = self.ranks(table);
        for &rank in &ranks {
            calls.push(Call::Unrank { rank });
        }
        let lists = self.lists(ranks);
        for list in &lists {
            calls.push(Call::UnrankList { ranks: List(list) });
        }
        for _ in 0..3 {
            let (k, j) = random_part(&mut self.rng);
            calls.extend([
                Call::SpanStart { k, j },
                Call::SpanSize { k, j },
                Call::PartWrite { k, j },
            ]);
        }
        for call in calls {
            make(self, call);
        }
    }

    pub fn compare_words(&mut self, words: &[u64]) {
        self.compare_all(&bytes_of(words));
    }

    /// 0, 2^n - 1, 2^n, 2^64 - 1, one below 2^n and any one.
    fn setups(&mut self, table: &[u8]) -> Vec<u64> {
        let limit = 1u64 << settings(table);
        vec![
            0,
            limit - 1,
            limit,
            u64::MAX,
            self.rng.below(limit),
            self.rng.word(),
        ]
    }

    /// Numbers of settings on: one up to n, and one at a border or any.
    fn numbers_on(&mut self, table: &[u8]) -> [u64; 2] {
        let (n, any) = (settings(table), self.rng.word());
        let border = self.rng.pick(&[0, n, n + 1, 64, 1 << 32, u64::MAX, any]);
        [self.rng.below(n + 1), border]
    }

    /// 0, C - 1, C, 2^64 - 1, one below C and any one; of a refused table without C.
    fn ranks(&mut self, table: &[u8]) -> Vec<u64> {
        let mut ranks = vec![0, u64::MAX, self.rng.word()];
        if paper::table_refusals(Call::Count, table, usize::MAX).is_empty() {
            let table = Table::read(table);
            let count = u64::try_from(table.total(&table.counts())).unwrap();
            ranks.extend([count, count.saturating_sub(1), self.rng.below(count.max(1))]);
        }
        ranks
    }

    /// All of the numbers in their order, some of the lower ones in their order, and some of all.
    fn lists(&mut self, mut numbers: Vec<u64>) -> [Vec<u8>; 3] {
        let rng = &mut self.rng;
        let mut some_of = |numbers: &[u64]| -> Vec<u64> {
            let len = rng.below(8);
            (0..len).map(|_| rng.pick(numbers)).collect()
        };
        numbers.sort();
        let mut lower = some_of(&numbers[..numbers.len() / 2]);
        lower.sort();
        let any = some_of(&numbers);
        [numbers, lower, any].map(|items| lists::with_spare(rng, &items))
    }
}

/// Both answers, and where the memories differ.
pub fn difference(expected: &Outcome, found: &Outcome) -> String {
    let mut text = format!(
        "by the paper:   {:?}\nby the library: {:?}",
        expected.answer, found.answer,
    );
    for (what, by_paper, by_library) in [
        ("sheets", &expected.sheet, &found.sheet),
        ("out memories", &expected.out, &found.out),
    ] {
        text += &first_difference(what, by_paper, by_library);
    }
    text
}

/// A line for a memory: where it differs first.
pub fn first_difference(what: &str, by_paper: &[u8], by_library: &[u8]) -> String {
    match (0..by_paper.len()).find(|&i| by_paper[i] != by_library[i]) {
        None => format!("\nthe {what} are equal"),
        Some(i) => format!(
            "\nthe {what} differ from byte {i} (word {}): {:02X} by the paper, {:02X} by the library",
            i / 8,
            by_paper[i],
            by_library[i],
        ),
    }
}

/// The table that a call has written; it has not been refused.
pub fn front(outcome: &Outcome) -> &[u8] {
    &outcome.out[..outcome.answer.value() as usize]
}

/// Every k and j at a border.
pub fn border_parts() -> Vec<(u64, u64)> {
    let great = [(1 << 32) + 1, 1 << 63, (1 << 63) + 1, u64::MAX];
    let numbers = [&[0, 1, 2, 3, 65_534, 65_535, 65_536, 65_537], &great[..]].concat();
    let mut parts = Vec::new();
    for &k in &numbers {
        let near = [k.wrapping_sub(1), k.wrapping_add(1)];
        parts.extend(numbers.iter().chain(&near).map(|&j| (k, j)));
    }
    parts
}

/// A k and a j of random classes; more than half are served.
pub fn random_part(rng: &mut Rng) -> (u64, u64) {
    let k = match rng.below(12) {
        0 => rng.pick(&[0, 65_536, (1 << 32) + 1, 1 << 63, u64::MAX]),
        1 => rng.word(),
        2 => 65_535,
        3 => 1,
        4..=7 => rng.between(2, 40),
        _ => rng.between(1, 65_535),
    };
    let j = match rng.below(8) {
        0 => k,
        1 => rng.word(),
        2 => k.saturating_sub(1),
        3 => 0,
        _ => rng.below(k.max(1)),
    };
    (k, j)
}

/// Prints past the capture of the test harness.
pub fn report(text: &str) {
    use std::io::Write;
    let _ = writeln!(std::io::stderr(), "{text}");
}
