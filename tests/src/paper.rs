//! The paper, straight: which refusals hold, what a call answers and what it leaves in the sheet
//! and the out memory. Written for clarity.

use crate::call::{Answer, Call, List, Outcome, Refusal};
use crate::distance::distance;
use crate::layout::bytes_of;
use crate::loose;
use crate::part;
use crate::reading::Table;

/// What a call does.
pub struct Expected {
    /// Every refusal whose condition holds, in the paper's order: the first one is returned. A
    /// condition that speaks of what is not there (a header, a record, a part) does not hold.
    pub refusals: Vec<Refusal>,
    pub outcome: Outcome,
    /// Whether an empty part is written, with setups before it and behind it.
    pub empty_between: bool,
    /// Whether a table that is not proper is made proper.
    pub improper: bool,
}

pub fn expect(call: Call, table: &[u8], sheet: &[u8], out: &[u8]) -> Expected {
    let mut refusals = table_refusals(call, table, sheet.len());
    let settled = Settled::read(table, &refusals);
    let words = settled.as_ref().and_then(|settled| settled.words(call));
    let n = (table.len() >= 8).then(|| table[0] / 4);
    let own = examiner_refusal(call, n, settled.as_ref()).or_else(|| match call {
        Call::MakeProper => out_refusal(words.as_deref()?, out.len()),
        _ => written_refusal(words.as_deref()?, out.len()),
    });
    refusals.extend(own.map(|number| Refusal::new(number, 0)));
    match call {
        Call::UnrankList { ranks } => {
            refusals.extend(list_refusals(ranks, settled.as_ref(), out.len()));
        }
        Call::Closest { .. } => refusals.extend(none_permitted(settled.as_ref())),
        _ => {}
    }

    let first = refusals.first().copied();
    let mut sheet = sheet.to_vec();
    let mut out = out.to_vec();
    if let Some(settled) = &settled {
        settled.leave_sheet(call, first, &mut sheet);
    }
    let empty_between = first.is_none()
        && settled
            .as_ref()
            .is_some_and(|settled| settled.has_empty_between(call));
    let answer = match (first, words, call) {
        (Some(refusal), ..) => Answer::refused(refusal),
        (None, Some(words), _) => Answer::result(put_words(&mut out, &words)),
        (None, None, Call::UnrankList { ranks }) => {
            let setups = settled.unwrap().setups(ranks);
            Answer::result(put_words(&mut out, &setups) / 8)
        }
        (None, None, Call::RuledOut { setup }) => Answer::found(settled.unwrap().ruled_out(setup)),
        (None, None, Call::Closest { setup }) => Answer::found(settled.unwrap().closest(setup)),
        (None, None, _) => Answer::result(settled.unwrap().result(call)),
    };
    let improper = first.is_none() && call == Call::MakeProper && !out.starts_with(table);
    let outcome = Outcome { answer, sheet, out };
    Expected {
        refusals,
        outcome,
        empty_between,
        improper,
    }
}

/// The length that a call needs of its out memory: that of the setups, or that of the table to be
/// written, if it asks for one and it is settled, or else 0.
pub fn out_needed(call: Call, table: &[u8]) -> usize {
    match call {
        Call::UnrankList { ranks } => 8 * ranks.items().len(),
        Call::PartWrite { .. } | Call::MakeProper => {
            let faults = table_refusals(call, table, usize::MAX);
            let words = Settled::read(table, &faults).and_then(|settled| settled.words(call));
            words.map_or(0, |words| 8 * words.len())
        }
        _ => 0,
    }
}

/// Those of refusals 1 to 10 that hold, in the paper's order; of a table to be made proper by the
/// loose rules.
pub fn table_refusals(call: Call, table: &[u8], sheet_len: usize) -> Vec<Refusal> {
    let mut holding = Vec::new();
    let mut note = |number: u64, place: u64| holding.push(Refusal::new(number, place));
    if table.len() < 8 {
        note(1, 0);
        return holding;
    }
    let length = table.len() as u64;
    let table = Table::read(table);
    if table.node_count > 65_535 {
        note(2, 0);
    }
    if length != 8 * (table.node_count + 1) {
        note(1, 0);
    }
    let is_loose = call == Call::MakeProper;
    let is_root = match is_loose {
        true => table.root.node <= table.node_count,
        false => table.root.node == table.node_count,
    };
    if !is_root {
        note(3, 0);
    }
    if (sheet_len as u64) / 8 < call.places(table.node_count) {
        note(10, 0);
    }
    let last = table.last();
    for k in 1..=last {
        let faults = match is_loose {
            true => loose::faults(&table, k),
            false => table.faults(k),
        };
        for number in faults {
            note(number, k);
        }
    }
    if !is_loose {
        if let Some(k) = table.lowest_unnamed(last) {
            note(9, k);
        }
    }
    holding
}

/// Refusals 12 to 15, of which at most one holds; a list has refusals of its own, and 21 comes behind.
/// 13 and 14 speak of the permitted setups: they hold only if it is settled which these are.
fn examiner_refusal(call: Call, n: Option<u8>, settled: Option<&Settled>) -> Option<u64> {
    let outside = |setup| n.is_some_and(|n| setup >= 1u64 << n);
    match call {
        Call::Check
        | Call::Count
        | Call::CountOn { .. }
        | Call::UnrankList { .. }
        | Call::MakeProper => None,
        Call::Test { setup }
        | Call::RuledOut { setup }
        | Call::Closest { setup }
        | Call::Rank { setup }
            if outside(setup) =>
        {
            Some(12)
        }
        Call::Test { .. } | Call::RuledOut { .. } | Call::Closest { .. } => None,
        Call::Rank { setup } => settled
            .is_some_and(|settled| !settled.permits(setup))
            .then_some(13),
        Call::Unrank { rank } => settled
            .is_some_and(|settled| u128::from(rank) >= settled.total())
            .then_some(14),
        Call::SpanStart { k, j } | Call::SpanSize { k, j } | Call::PartWrite { k, j } => {
            is_no_part(k, j).then_some(15)
        }
    }
}

fn is_no_part(k: u64, j: u64) -> bool {
    k == 0 || k > 65_535 || j >= k
}

/// Refusals 16 and 11, of a table to be written that has these words, however many.
pub fn written_refusal(words: &[u64], out_len: usize) -> Option<u64> {
    if words.len() - 1 > 65_535 {
        Some(16)
    } else {
        out_refusal(words, out_len)
    }
}

/// Refusal 11, of a table to be written that has these words.
fn out_refusal(words: &[u64], out_len: usize) -> Option<u64> {
    (out_len < 8 * words.len()).then_some(11)
}

/// Those of refusals 18, 17 and 14 that hold of a list, 17 and 14 with the lowest item, from 1, of
/// which they do. 14 holds only if it is settled how many setups are permitted.
fn list_refusals(ranks: List, settled: Option<&Settled>, out_len: usize) -> Vec<Refusal> {
    let items = ranks.items();
    let total = settled.map(Settled::total);
    let is_below = |&i: &usize| i > 0 && items[i] < items[i - 1];
    let is_too_high = |&i: &usize| total.is_some_and(|total| u128::from(items[i]) >= total);
    let lowest = |index: Option<usize>| index.map(|index| index as u64 + 1);
    let places = [
        (18, (out_len / 8 < items.len()).then_some(0)),
        (17, lowest((0..items.len()).find(is_below))),
        (14, lowest((0..items.len()).find(is_too_high))),
    ];
    let holding = places.into_iter().filter_map(|(number, place)| {
        let place = place?;
        Some(Refusal::new(number, place))
    });
    holding.collect()
}

/// Refusal 21, if it is settled that nothing is permitted.
fn none_permitted(settled: Option<&Settled>) -> Option<Refusal> {
    let is_empty = settled.is_some_and(|settled| settled.total() == 0);
    is_empty.then_some(Refusal::new(21, 0))
}

/// Start and size of part j of k, of `total` setups: it starts at j × C / k, rounded down, and ends
/// before the start of part j + 1.
pub fn span(total: u128, k: u64, j: u64) -> (u128, u128) {
    let start = |index: u64| u128::from(index) * total / u128::from(k);
    (start(j), start(j + 1) - start(j))
}

/// A table with these faults, if it is settled which setups are permitted: every record is there and
/// none breaks rule 4 or 6, because heights fall along every edge then, whatever the other faults
/// are.
pub fn settled(table: &[u8], faults: &[Refusal]) -> Option<Table> {
    let falling = faults.iter().all(|fault| ![4, 6].contains(&fault.number));
    if table.len() < 8 || !falling {
        return None;
    }
    let table = Table::read(table);
    let last = table.last();
    (last == table.node_count && table.root.node <= last).then_some(table)
}

/// A table of which it is settled which setups are permitted, with its places.
struct Settled {
    table: Table,
    counts: Vec<u128>,
}

impl Settled {
    fn read(table: &[u8], faults: &[Refusal]) -> Option<Settled> {
        let table = settled(table, faults)?;
        let counts = table.counts();
        Some(Settled { table, counts })
    }

    fn total(&self) -> u128 {
        self.table.total(&self.counts)
    }

    fn permits(&self, setup: u64) -> bool {
        self.table.permits(self.table.root, setup)
    }

    /// The words of the table that a call asks for, however many, if it asks for one.
    fn words(&self, call: Call) -> Option<Vec<u64>> {
        match call {
            Call::MakeProper => Some(loose::proper(&self.table)),
            Call::PartWrite { k, j } if !is_no_part(k, j) => {
                let (start, size) = span(self.total(), k, j);
                Some(part::of_ranks(
                    &self.table,
                    &self.counts,
                    start..start + size,
                ))
            }
            _ => None,
        }
    }

    /// Whether the part that a call writes is empty, with setups before it and behind it.
    fn has_empty_between(&self, call: Call) -> bool {
        let Call::PartWrite { k, j } = call else {
            return false;
        };
        let (start, size) = span(self.total(), k, j);
        size == 0 && (1..self.total()).contains(&start)
    }

    /// Changes the sheet as the call does, if `first` is the refusal returned: counting leaves the
    /// counts, and all else leaves the places that it required blank.
    fn leave_sheet(&self, call: Call, first: Option<Refusal>, sheet: &mut [u8]) {
        match (first.map(|refusal| refusal.number), call) {
            (Some(1..=8 | 10), _) => {}
            (None, Call::Count) => {
                let counts = self.counts.iter().map(|&count| narrow(count));
                put_words(sheet, &Vec::from_iter(counts));
            }
            _ => sheet[..8 * call.places(self.table.node_count) as usize].fill(0),
        }
    }

    /// The setups of a list of numbers, which are all below C: each is the number's own.
    fn setups(&self, ranks: List) -> Vec<u64> {
        let setup = |&rank: &u64| self.table.setup_number(rank, &self.counts);
        ranks.items().iter().map(setup).collect()
    }

    /// 0 if the setup is permitted, 1 if nothing is, or 2, p and a setup: p is the smallest number
    /// such that no permitted setup begins with the same first p settings, and the setup is the
    /// smallest permitted one that agrees in the first p - 1. It is the next permitted one from
    /// where those begin that agree so.
    fn ruled_out(&self, setup: u64) -> [u64; 3] {
        let Settled { table, counts } = self;
        let rules_out = |&p: &u64| table.permitted_beginning(setup, p, counts) == 0;
        match (0..=table.n).find(rules_out) {
            None => [0, 0, 0],
            Some(0) => [1, 0, 0],
            Some(p) => {
                let left = table.n - (p - 1);
                let before = table.permitted_below(setup >> left << left, counts);
                [2, p, table.setup_number(narrow(before), counts)]
            }
        }
    }

    /// The closest permitted setup, and in how many settings it differs.
    fn closest(&self, setup: u64) -> [u64; 3] {
        let closest = self.table.closest(setup).unwrap();
        [closest, distance(closest, setup), 0]
    }

    /// The value that a call answers if nothing is refused and nothing written.
    fn result(&self, call: Call) -> u64 {
        let Settled { table, counts } = self;
        match call {
            Call::Check => (table.n << 32) + table.node_count,
            Call::Count => narrow(self.total()),
            Call::CountOn { m } => table.count_on(m),
            Call::Test { setup } => u64::from(self.permits(setup)),
            Call::Rank { setup } => narrow(table.permitted_below(setup, counts)),
            Call::Unrank { rank } => table.setup_number(rank, counts),
            Call::SpanStart { k, j } => narrow(span(self.total(), k, j).0),
            Call::SpanSize { k, j } => narrow(span(self.total(), k, j).1),
            Call::RuledOut { .. }
            | Call::Closest { .. }
            | Call::UnrankList { .. }
            | Call::PartWrite { .. }
            | Call::MakeProper => {
                unreachable!("answered in three words, or written, or refused")
            }
        }
    }
}

fn narrow(number: u128) -> u64 {
    u64::try_from(number).unwrap()
}

/// Writes the words to the front of a memory. Gives back the number of bytes.
pub fn put_words(memory: &mut [u8], words: &[u64]) -> u64 {
    let bytes = bytes_of(words);
    memory[..bytes.len()].copy_from_slice(&bytes);
    bytes.len() as u64
}
