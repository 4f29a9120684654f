//! Which cases have been met: answers by operation and refusal, and refusals that hold together.

use std::collections::{BTreeMap, BTreeSet};

use crate::call::{Answer, Call, Refusal};
use crate::combination::Operation;
use crate::distance::distance;
use crate::pascal;
use crate::sheets::Length;

/// The refusals of a table, by every operation but the one on loose tables, in the paper's order; of
/// 1 its second place, since of a table under 8 bytes no other condition holds, but 15, 17 and 18.
const SHARED: [u64; 10] = [2, 1, 3, 10, 4, 6, 5, 7, 8, 9];
/// Those of a loose table.
const OF_LOOSE: [u64; 6] = [2, 1, 3, 10, 4, 6];
const RECORD_RULES: [u64; 5] = [4, 6, 5, 7, 8];
const LAST_REFUSAL: u64 = 21;

/// An operation with the refusals of its own, which come last.
pub type Listed = (&'static str, &'static [u64]);

/// The one on loose tables.
pub const MAKE_PROPER: Listed = ("make proper", &[11]);

pub const ONE_TABLE: [Listed; 13] = [
    ("check", &[]),
    ("count", &[]),
    ("count on", &[]),
    ("test", &[12]),
    ("ruled out", &[12]),
    ("closest", &[12, 21]),
    ("rank", &[12, 13]),
    ("unrank", &[14]),
    ("unrank list", &[18, 17, 14]),
    ("span start", &[15]),
    ("span size", &[15]),
    ("part-write", &[15, 16, 11]),
    MAKE_PROPER,
];

const OF_TWO: &[u64] = &[19, 20, 16, 11];

pub const TWO_TABLES: [Listed; 3] = [("join", OF_TWO), ("share", OF_TWO), ("without", OF_TWO)];

pub const OPERATION_COUNT: u64 = (ONE_TABLE.len() + TWO_TABLES.len()) as u64;

/// All operations.
pub fn operations() -> Vec<Listed> {
    [&ONE_TABLE[..], &TWO_TABLES].concat()
}

pub fn name_of_two(operation: Operation) -> &'static str {
    match operation {
        Operation::Join => "join",
        Operation::Share => "share",
        Operation::Without => "without",
    }
}

pub fn name_of(call: Call) -> &'static str {
    match call {
        Call::Check => "check",
        Call::Count => "count",
        Call::CountOn { .. } => "count on",
        Call::Test { .. } => "test",
        Call::RuledOut { .. } => "ruled out",
        Call::Closest { .. } => "closest",
        Call::Rank { .. } => "rank",
        Call::Unrank { .. } => "unrank",
        Call::UnrankList { .. } => "unrank list",
        Call::SpanStart { .. } => "span start",
        Call::SpanSize { .. } => "span size",
        Call::PartWrite { .. } => "part-write",
        Call::MakeProper => MAKE_PROPER.0,
    }
}

/// The refusals of a table by an operation, in the paper's order.
fn of_table(name: &str) -> &'static [u64] {
    match name == MAKE_PROPER.0 {
        true => &OF_LOOSE,
        false => &SHARED,
    }
}

/// Whether an operation may answer this refusal, or a result if it is 0.
fn is_listed(name: &str, number: u64) -> bool {
    let mut operations = operations().into_iter();
    let (_, own) = operations.find(|operation| operation.0 == name).unwrap();
    number == 0 || of_table(name).contains(&number) || own.contains(&number)
}

/// Whether an answer is one that is listed for its call, whatever the table is.
pub fn is_listed_answer(call: Call, answer: Answer) -> bool {
    let [value, more @ ..] = answer.words;
    let items = call.list().items().len() as u64;
    match answer.refusal() {
        Some(Refusal { number, place, .. }) => {
            let places = match (call, number) {
                (_, 4..=9) => 1..=65_535,
                (Call::UnrankList { .. }, 17) => 2..=items,
                (Call::UnrankList { .. }, 14) => 1..=items,
                _ => 0..=0,
            };
            is_listed(name_of(call), number) && places.contains(&place) && more == [0, 0]
        }
        None => match (call, answer.words) {
            (Call::RuledOut { .. }, [kind, p, setup]) => {
                kind <= 2 && (1..=63).contains(&p) == (kind == 2) && setup < 1 << 63
            }
            (Call::Closest { setup }, [closest, fewest, last]) => {
                closest < 1 << 63 && fewest == distance(closest, setup) && last == 0
            }
            _ => more == [0, 0] && is_listed_value(call, value, items),
        },
    }
}

/// Whether a result of one word is one that is listed for its call, which has so many items.
fn is_listed_value(call: Call, value: u64, items: u64) -> bool {
    match call {
        Call::Check => value >> 32 <= 63 && value & 0xFFFF_FFFF <= 65_535,
        Call::CountOn { .. } => value <= pascal::row(63)[31],
        Call::Test { .. } => value <= 1,
        Call::UnrankList { .. } => value == items,
        Call::PartWrite { .. } | Call::MakeProper => is_table_length(value),
        Call::Rank { .. } | Call::Unrank { .. } => value < 1 << 63,
        Call::Count | Call::SpanStart { .. } | Call::SpanSize { .. } => value <= 1 << 63,
        Call::RuledOut { .. } | Call::Closest { .. } => unreachable!("answered in three words"),
    }
}

/// Whether an answer is one that is listed for an operation on two tables, whatever these are.
pub fn is_listed_of_two(operation: Operation, answer: Answer) -> bool {
    let [value, table, last] = answer.words;
    let Some(Refusal { number, place, .. }) = answer.refusal() else {
        return [table, last] == [0, 0] && is_table_length(value);
    };
    let places = match number {
        4..=9 => 1..=65_535,
        _ => 0..=0,
    };
    let tables = match SHARED.contains(&number) {
        true => 1..=2,
        false => 0..=0,
    };
    is_listed(name_of_two(operation), number)
        && places.contains(&place)
        && tables.contains(&table)
        && last == 0
}

/// Whether a table can have so many bytes.
fn is_table_length(bytes: u64) -> bool {
    (8..=524_288).contains(&bytes) && bytes.is_multiple_of(8)
}

/// The table that a refusal names, or 0, and its number; both are 0 for a result.
type Cause = (u64, u64);

const RESULT: Cause = (0, 0);

fn cause(refusal: &Refusal) -> Cause {
    (refusal.table, refusal.number)
}

/// The tables that the refusals of an operation name; 0 if it is on one table.
fn named_tables(name: &str) -> &'static [u64] {
    match TWO_TABLES.iter().any(|operation| operation.0 == name) {
        true => &[1, 2],
        false => &[0],
    }
}

/// All refusals of an operation in the paper's order.
fn causes((name, own): Listed) -> Vec<Cause> {
    let named = |&table: &u64| of_table(name).iter().map(move |&number| (table, number));
    let tables = named_tables(name).iter().flat_map(named);
    tables
        .chain(own.iter().map(|&number| (0, number)))
        .collect()
}

/// A table's sheet, by the number of the table, 0 if there is one table; or the pair sheet.
#[derive(Clone, Copy, Debug, PartialEq, Eq, PartialOrd, Ord)]
pub enum Sheet {
    Of(u64),
    Pairs,
}

/// The sheets of an operation.
fn sheets_of(name: &str) -> Vec<Sheet> {
    match named_tables(name) {
        [only] => vec![Sheet::Of(*only)],
        tables => tables
            .iter()
            .map(|&table| Sheet::Of(table))
            .chain([Sheet::Pairs])
            .collect(),
    }
}

/// The lengths of a sheet that are to be met with a refusal, or with a result.
fn lengths_to_meet((table, number): Cause, sheet: Sheet) -> &'static [Length] {
    match (number, sheet) {
        (10, Sheet::Of(own)) if own == table => &[Length::Short],
        (20, Sheet::Pairs) => &[Length::Short],
        _ => &[Length::Just, Length::SpareBytes, Length::MorePlaces],
    }
}

/// Whether two refusals of an operation can hold together, the first one of them returned. A setup of
/// 2^n or more is neither permitted nor unpermitted; with a fault of 4 or 6 it is not settled which
/// setups are permitted, and of a loose table not with one of 3; if all records pass, and the root edge
/// names the last of them, something is permitted; where there is no part or no result, or no table of
/// it, nothing more is said of it.
fn compatible(name: &str, (_, first): Cause, (_, other): Cause) -> bool {
    match (first, other) {
        (12, 13) | (9, 21) | (15 | 19, 16 | 11) | (16, 11) => false,
        (4 | 6, 13 | 14 | 20 | 21 | 16 | 11) => false,
        (3, 11) => name != MAKE_PROPER.0,
        _ => true,
    }
}

/// An operation, the refusal returned and another one whose condition holds too.
type Pair = (&'static str, Cause, Cause);

#[derive(Default)]
pub struct Tally {
    pub cases: u64,
    /// By operation and refusal.
    answers: BTreeMap<(&'static str, Cause), u64>,
    /// Of these the cases in which no byte of a sheet was zero before.
    filled: BTreeMap<(&'static str, Cause, Sheet, Length), u64>,
    together: BTreeSet<Pair>,
    /// Both at the same record.
    same_record: BTreeSet<Pair>,
    /// The second at a later record.
    later_record: BTreeSet<Pair>,
    /// Empty parts written, with setups before them and behind them.
    pub empty_between: u64,
    /// Tables that were not proper and have been made so.
    pub improper: u64,
}

impl Tally {
    /// Notes a case, the refusals whose conditions hold in it, the returned one first, and the
    /// lengths of those of its sheets that had no zero byte.
    pub fn note(
        &mut self,
        name: &'static str,
        refusals: &[Refusal],
        filled: impl IntoIterator<Item = (Sheet, Length)>,
    ) {
        self.cases += 1;
        let answer = refusals.first().map_or(RESULT, cause);
        *self.answers.entry((name, answer)).or_default() += 1;
        for (sheet, length) in filled {
            let met = self.filled.entry((name, answer, sheet, length));
            *met.or_default() += 1;
        }
        for other in refusals.iter().skip(1) {
            let first = refusals[0];
            let pair = (name, cause(&first), cause(other));
            self.together.insert(pair);
            let is_rule = |refusal: &Refusal| RECORD_RULES.contains(&refusal.number);
            if is_rule(&first) && is_rule(other) && first.table == other.table {
                let set = if first.place == other.place {
                    &mut self.same_record
                } else {
                    &mut self.later_record
                };
                set.insert(pair);
            }
        }
    }

    /// How many cases of an operation were answered by this refusal, or by a result if it is 0.
    pub fn answered(&self, operation: &'static str, number: u64) -> u64 {
        let of_table = |table| self.answers.get(&(operation, (table, number)));
        (0..=2).filter_map(of_table).sum()
    }

    /// How many cases of an operation there were.
    pub fn calls(&self, operation: &'static str) -> u64 {
        let numbers = 0..=LAST_REFUSAL;
        numbers.map(|number| self.answered(operation, number)).sum()
    }

    /// A result and every refusal of each of these operations have been met, and no other.
    pub fn assert_every_answer(&self, operations: &[Listed]) {
        for &operation in operations {
            let of_operation = self.answers.keys().filter(|key| key.0 == operation.0);
            let met: BTreeSet<Cause> = of_operation.map(|key| key.1).collect();
            let listed: BTreeSet<Cause> = causes(operation).into_iter().chain([RESULT]).collect();
            assert_eq!(met, listed, "{}: met, listed (table, refusal)", operation.0);
        }
    }

    /// Each of these operations has been called so often.
    pub fn assert_calls(&self, operations: &[Listed], least: u64) {
        for (name, _) in operations {
            let calls = self.calls(name);
            assert!(calls >= least, "{name}: {calls} calls");
        }
    }

    /// A result and every refusal of each of these operations have been met with sheets without a
    /// zero byte: just long enough, with spare bytes and with more places; 10 and 20 with short ones.
    /// Each 50 times, but 16, whose tables are long, at least once.
    pub fn assert_every_sheet(&self, operations: &[Listed]) {
        for &operation in operations {
            for cause in causes(operation).into_iter().chain([RESULT]) {
                for sheet in sheets_of(operation.0) {
                    self.assert_sheet(operation.0, cause, sheet);
                }
            }
        }
    }

    fn assert_sheet(&self, name: &'static str, cause: Cause, sheet: Sheet) {
        let (table, number) = cause;
        let least = if number == 16 { 1 } else { 50 };
        for &length in lengths_to_meet(cause, sheet) {
            let met = self.filled.get(&(name, cause, sheet, length)).copied();
            assert!(
                met.unwrap_or(0) >= least,
                "{name}, refusal {number} (0: a result) of table {table}, {sheet:?}, {length:?}: filled sheets met {met:?}"
            );
        }
    }

    /// How many sheets of this length had no zero byte.
    fn filled(&self, length: Length) -> u64 {
        let cases = self.filled.iter().filter(|(key, _)| key.3 == length);
        cases.map(|(_, cases)| cases).sum()
    }

    /// Every two refusals that can hold together have been met together in each of these operations
    /// that has both, in the paper's order, and no others.
    pub fn assert_every_pair(&self, operations: &[Listed]) {
        for &operation in operations {
            let name = operation.0;
            let order = causes(operation);
            for (i, &first) in order.iter().enumerate() {
                for &other in &order[i + 1..] {
                    let met = self.together.contains(&(name, first, other));
                    assert!(
                        met == compatible(name, first, other),
                        "{name}, {first:?} before {other:?} (table, refusal): met is {met}"
                    );
                }
            }
            for &table in named_tables(name) {
                self.assert_every_record_pair(name, table);
            }
        }
    }

    fn assert_every_record_pair(&self, name: &'static str, table: u64) {
        let is_rule = |rule: &u64| RECORD_RULES.contains(rule);
        let rules: Vec<u64> = of_table(name).iter().copied().filter(is_rule).collect();
        for (i, &first) in rules.iter().enumerate() {
            for &other in &rules[i + 1..] {
                let [earlier, later] = [(table, first), (table, other)];
                let met = self.same_record.contains(&(name, earlier, later));
                assert!(
                    met,
                    "{name}: no case of {earlier:?} and {later:?} at one record"
                );
                let met = self.later_record.contains(&(name, later, earlier));
                assert!(
                    met,
                    "{name}: no case of {later:?} with {earlier:?} at a later record"
                );
            }
        }
    }

    /// A line an operation: its calls, its results and how often each refusal was met.
    pub fn lines(&self) -> String {
        let mut text = String::from("operation        calls   result");
        for number in 1..=LAST_REFUSAL {
            text += &format!(" {number:>8}");
        }
        for (name, _) in operations() {
            text += &format!("\n{name:<11} {:>10}", self.calls(name));
            for number in 0..=LAST_REFUSAL {
                let shown = match is_listed(name, number) {
                    true => self.answered(name, number).to_string(),
                    false => String::from("-"),
                };
                text += &format!(" {shown:>8}");
            }
        }
        text
    }

    pub fn summary(&self) -> String {
        let mut by_number: BTreeMap<u64, u64> = BTreeMap::new();
        for ((_, (_, number)), cases) in &self.answers {
            *by_number.entry(*number).or_default() += cases;
        }
        let parts: Vec<String> = by_number
            .iter()
            .map(|(number, cases)| format!("{number}: {cases}"))
            .collect();
        format!(
            "{} cases; by refusal (0: a result) {}\nsheets without a zero byte: {} short, {} just long enough, {} with spare bytes, {} with more places",
            self.cases,
            parts.join(", "),
            self.filled(Length::Short),
            self.filled(Length::Just),
            self.filled(Length::SpareBytes),
            self.filled(Length::MorePlaces)
        )
    }
}
