//! Calls of every operation on raw bytes, each memory beside a guard page, compared with the paper.
//! Call i of a seed is always the same, whichever calls are made before it.

use std::fmt;
use std::time::{Duration, Instant};

use crate::call::{describe, Answer, Call, List, Outcome, Refusal};
use crate::combination::{Combination, Memories, Operation};
use crate::combined::Reading;
use crate::combining;
use crate::comparison::{difference, random_part};
use crate::fuzz_two::{self, Places};
use crate::layout::settings;
use crate::library;
use crate::lists;
use crate::pages::{self, Guard, Pages};
use crate::paper::{self, Expected};
use crate::raw::{self, Source};
use crate::rng::Rng;
use crate::sheets::{self, Length};
use crate::tally::{
    is_listed_answer, name_of, name_of_two, Sheet, Tally, ONE_TABLE, OPERATION_COUNT,
};

const LONGEST_TABLE: usize = raw::LONGEST + 8;
/// The longest sheet: count-on's for the longest table, and some bytes more. No memory is longer.
const LONGEST_SHEET: usize = 64 * (LONGEST_TABLE + 8) + 4096;
const LONGEST_OUT: usize = raw::LONGEST + 8 * 256 + 4096;
/// The longest memories of a call on two tables; the longest tables may need longer ones.
const LONGEST_OF_TWO: Memories<usize> = Memories {
    sheets: [LONGEST_SHEET; 2],
    pairs: LONGEST_PAIRS,
    out: LONGEST_OUT,
};
const LONGEST_PAIRS: usize = 10 << 20;
const MOST_ITEMS: u64 = 20_000;
/// How many differences are printed in full.
const PRINTED: u64 = 5;

/// What a run has met.
pub struct Report {
    seed: u64,
    pub tally: Tally,
    accepted: u64,
    /// Of these the ones that were raw bytes.
    raw_accepted: u64,
    pub differences: u64,
    time: Duration,
}

impl fmt::Display for Report {
    fn fmt(&self, f: &mut fmt::Formatter) -> fmt::Result {
        writeln!(f, "{}", self.tally.lines())?;
        write!(
            f,
            "seed {}: {}\naccepted tables: {}, of them raw bytes: {}\nempty parts between others: {}\ntables made proper that were not: {}\n{:.1} s, {} differences",
            self.seed,
            self.tally.summary(),
            self.accepted,
            self.raw_accepted,
            self.tally.empty_between,
            self.tally.improper,
            self.time.as_secs_f64(),
            self.differences
        )
    }
}

/// Makes the calls from number `first` on.
pub fn run(seed: u64, first: u64, calls: u64) -> Report {
    let start = Instant::now();
    let mut fuzz = Fuzz::new(seed);
    let mut differences = 0;
    for number in first..first + calls {
        if let Err(text) = fuzz.call(number) {
            differences += 1;
            if differences <= PRINTED {
                println!("call {number} of {text}");
            }
        }
    }
    Report {
        seed,
        tally: fuzz.tally,
        accepted: fuzz.accepted,
        raw_accepted: fuzz.raw_accepted,
        differences,
        time: start.elapsed(),
    }
}

struct Fuzz {
    seed: u64,
    source: Source,
    contents: [Vec<u8>; 3],
    table: Pages,
    list: Pages,
    sheet: Pages,
    out: Pages,
    two: Places,
    tally: Tally,
    accepted: u64,
    raw_accepted: u64,
}

impl Fuzz {
    fn new(seed: u64) -> Fuzz {
        pages::tell_faults();
        let mut rng = Rng::new(seed);
        Fuzz {
            seed,
            source: Source::new(&mut rng),
            contents: [
                vec![0; LONGEST_SHEET],
                vec![0xFF; LONGEST_SHEET],
                sheets::filling(&mut rng, LONGEST_SHEET),
            ],
            table: Pages::new(LONGEST_TABLE),
            list: Pages::new(8 * MOST_ITEMS as usize + 8),
            sheet: Pages::new(LONGEST_SHEET),
            out: Pages::new(LONGEST_OUT),
            two: Places::new(LONGEST_TABLE, LONGEST_OF_TWO),
            tally: Tally::default(),
            accepted: 0,
            raw_accepted: 0,
        }
    }

    /// One call and its comparison. A difference comes back as a text.
    fn call(&mut self, number: u64) -> Result<(), String> {
        let mut rng = Rng::new(self.seed ^ number.wrapping_mul(0xD134_2543_DE82_EF95));
        let guard = match number % 2 {
            0 => Guard::Behind,
            _ => Guard::Before,
        };
        pages::set_under_way(number);
        match rng.below(OPERATION_COUNT) {
            0 => {
                let (table, is_raw) = self.source.loose_table(&mut rng);
                self.call_on_one(&mut rng, guard, Call::MakeProper, &table, is_raw)
            }
            i if i < ONE_TABLE.len() as u64 => {
                let (table, is_raw) = self.source.table(&mut rng);
                let limit = 1 << settings(&table);
                let list = list(&mut rng, limit);
                let call = any_call(&mut rng, limit, List(&list));
                self.call_on_one(&mut rng, guard, call, &table, is_raw)
            }
            _ => self.call_on_two(&mut rng, guard),
        }
    }

    fn call_on_one(
        &mut self,
        rng: &mut Rng,
        guard: Guard,
        call: Call,
        table: &[u8],
        is_raw: bool,
    ) -> Result<(), String> {
        let (sheet_len, out_len) = lengths(rng, call, table);
        let [sheet, out] = [sheet_len, out_len].map(|len| content(rng, &self.contents, len));
        let expected = paper::expect(call, table, sheet, out);
        let filled = sheets::filled_length(sheet, sheets::needed(call, table));

        self.table.put(table, guard);
        self.list.put(call.list().0, guard);
        self.sheet.put(sheet, guard);
        self.out.put(out, guard);
        let answer = self.lend(call);
        self.note(call, &expected, filled, is_raw);
        self.compare(call, table, answer, expected.outcome)
            .map_err(|text| {
                format!(
                    "{}\n{text}",
                    describe(self.seed, call, table, sheet_len, out_len)
                )
            })
    }

    fn call_on_two(&mut self, rng: &mut Rng, guard: Guard) -> Result<(), String> {
        let [(first, first_raw), (second, second_raw)] = self.source.two_tables(rng);
        // If they are equal, they lie in the same memory every other time.
        let is_twice = first == second && rng.chance(50);
        let reading = Reading::new(Combination {
            operation: rng.pick(&Operation::ALL),
            first: &first,
            second: (!is_twice).then_some(&second),
        });
        let combination = reading.combination;
        let lengths = fuzz_two::lengths(rng, reading.needed(), LONGEST_OF_TWO);
        let before = lengths.map(|len| content(rng, &self.contents, len).to_vec());
        let expected = reading.expect(&before);

        let found = self.two.run(combination, &before, guard);
        let name = name_of_two(combination.operation);
        let returned = returned(&expected.refusals);
        let filled = combining::filled_lengths(&before, &reading.needed());
        self.tally.note(name, returned, filled);
        for (table, is_raw) in [(1, first_raw), (2, second_raw)] {
            self.note_accepted(returned, table, is_raw);
        }
        let compared = found.and_then(|found| match found == expected.outcome {
            true => Ok(()),
            false => Err(combining::difference(&expected.outcome, &found)),
        });
        compared.map_err(|text| format!("{}\n{text}", combination.describe(self.seed, &lengths)))
    }

    fn note(&mut self, call: Call, expected: &Expected, filled: Option<Length>, is_raw: bool) {
        let returned = returned(&expected.refusals);
        let filled = filled.map(|length| (Sheet::Of(0), length));
        self.tally.note(name_of(call), returned, filled);
        self.tally.empty_between += u64::from(expected.empty_between);
        self.tally.improper += u64::from(expected.improper);
        if call != Call::MakeProper {
            self.note_accepted(returned, 0, is_raw);
        }
    }

    /// Counts a table, the only one (0), the first or the second, if it has passed: what is returned
    /// is no refusal of a table, or of the second one where this is the first.
    fn note_accepted(&mut self, returned: &[Refusal], table: u64, is_raw: bool) {
        let is_past = |refusal: &Refusal| refusal.number > 10 || refusal.table > table;
        if returned.iter().all(is_past) {
            self.accepted += 1;
            self.raw_accepted += u64::from(is_raw);
        }
    }

    /// The library's answer. The table and the list cannot be written meanwhile.
    fn lend(&mut self, call: Call) -> Answer {
        let (table, list) = (self.table.lend(), self.list.lend());
        let (sheet, out) = (self.sheet.lend(), self.out.lend());
        self.table.let_write(false);
        self.list.let_write(false);
        // SAFETY: each pointer is valid for its length, and the four memories lie apart.
        let answer = unsafe { library::call_with(call, table, list, sheet, out) };
        self.table.let_write(true);
        self.list.let_write(true);
        answer
    }

    fn compare(
        &self,
        call: Call,
        table: &[u8],
        answer: Answer,
        by_paper: Outcome,
    ) -> Result<(), String> {
        let found = Outcome {
            answer,
            sheet: self.sheet.content().to_vec(),
            out: self.out.content().to_vec(),
        };
        if found != by_paper {
            return Err(difference(&by_paper, &found));
        }
        let faults = [
            (
                is_listed_answer(call, answer),
                "an answer that is not listed",
            ),
            (self.table.content() == table, "the table has changed"),
            (self.list.content() == call.list().0, "the list has changed"),
            (
                [&self.table, &self.list, &self.sheet, &self.out]
                    .iter()
                    .all(|pages| pages.beside_unchanged()),
                "bytes beside a memory have changed",
            ),
        ];
        match faults.iter().find(|fault| !fault.0) {
            Some(fault) => Err(format!("{}: {answer:?}", fault.1)),
            None => Ok(()),
        }
    }
}

/// The refusal that is returned, if there is one.
fn returned(refusals: &[Refusal]) -> &[Refusal] {
    &refusals[..refusals.len().min(1)]
}

/// Any operation on one table that has to be proper, with any numbers, or with this list.
fn any_call<'a>(rng: &mut Rng, limit: u64, list: List<'a>) -> Call<'a> {
    let number = number(rng, limit);
    let (k, j) = part(rng, limit);
    match rng.below(ONE_TABLE.len() as u64 - 1) {
        0 => Call::Check,
        1 => Call::Count,
        2 => Call::Test { setup: number },
        3 => Call::Rank { setup: number },
        4 => Call::Unrank { rank: number },
        5 => Call::UnrankList { ranks: list },
        6 => Call::SpanStart { k, j },
        7 => Call::SpanSize { k, j },
        8 => Call::RuledOut { setup: number },
        9 => Call::CountOn {
            m: number_on(rng, limit),
        },
        10 => Call::Closest { setup: number },
        _ => Call::PartWrite { k, j },
    }
}

/// Small ones, those below 2^n, those about a power of two, the greatest, and any.
fn number(rng: &mut Rng, limit: u64) -> u64 {
    match rng.below(10) {
        0..=2 => rng.below(8),
        3..=5 => rng.below(limit),
        6 => limit.wrapping_sub(rng.below(3)).wrapping_add(1),
        7 => (1u64 << rng.below(64))
            .wrapping_add(rng.below(3))
            .wrapping_sub(1),
        8 => u64::MAX - rng.below(4),
        _ => rng.word(),
    }
}

/// A number of settings on; most are at most one above n.
fn number_on(rng: &mut Rng, limit: u64) -> u64 {
    match rng.below(4) {
        0 => number(rng, limit),
        _ => rng.below(u64::from(limit.ilog2()) + 2),
    }
}

fn part(rng: &mut Rng, limit: u64) -> (u64, u64) {
    match rng.below(4) {
        0 => (number(rng, limit), number(rng, limit)),
        1 => {
            let k = rng.between(1, 8);
            (k, rng.below(k))
        }
        _ => random_part(rng),
    }
}

/// A list of any length, most are short.
fn list(rng: &mut Rng, limit: u64) -> Vec<u8> {
    let len = match rng.below(2048) {
        0 => rng.between(8_000, MOST_ITEMS),
        1..=40 => rng.below(500),
        41..=250 => 0,
        251..=700 => 1,
        _ => rng.between(2, 9),
    };
    let top = number(rng, limit).max(1);
    let item = |rng: &mut Rng| match rng.below(32) {
        0 => number(rng, limit),
        _ => rng.below(top),
    };
    let items = (0..len).map(|_| item(rng)).collect();
    let other = number(rng, limit);
    lists::mostly_in_order(rng, items, other)
}

/// The lengths of sheet and out memory: about what the call needs, or any.
fn lengths(rng: &mut Rng, call: Call, table: &[u8]) -> (usize, usize) {
    let sheet = match rng.below(8) {
        0 => rng.index(300),
        _ => sheets::random_length(rng, sheets::needed(call, table)),
    };
    let out = match call {
        Call::PartWrite { .. } | Call::MakeProper if rng.chance(50) => rng.index(table.len() + 600),
        Call::PartWrite { .. } | Call::MakeProper | Call::UnrankList { .. } => {
            sheets::random_length(rng, paper::out_needed(call, table))
        }
        _ => 0,
    };
    (sheet, out)
}

/// Zeros, or seven times in eight bytes none of which is zero.
fn content<'a>(rng: &mut Rng, contents: &'a [Vec<u8>; 3], len: usize) -> &'a [u8] {
    let all = &contents[rng.index(8).min(2)];
    let start = rng.index(all.len() - len + 1);
    &all[start..start + len]
}
