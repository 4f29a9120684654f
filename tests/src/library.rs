//! The library under test, called with guarded memory: tables, the list and all guards have to stay
//! unchanged.

use crate::call::{describe, Answer, Call, Outcome};
use crate::combination::{self, Combination, Contents, Memories, Operation};
use crate::memory::Memory;
use crate::rng::Rng;

mod ffi {
    extern "C" {
        pub fn setupbook_check(
            table: *const u8,
            table_len: usize,
            sheet: *mut u8,
            sheet_len: usize,
        ) -> u64;
        pub fn setupbook_count(
            table: *const u8,
            table_len: usize,
            sheet: *mut u8,
            sheet_len: usize,
        ) -> u64;
        pub fn setupbook_test(
            table: *const u8,
            table_len: usize,
            setup: u64,
            sheet: *mut u8,
            sheet_len: usize,
        ) -> u64;
        pub fn setupbook_rank(
            table: *const u8,
            table_len: usize,
            setup: u64,
            sheet: *mut u8,
            sheet_len: usize,
        ) -> u64;
        pub fn setupbook_unrank(
            table: *const u8,
            table_len: usize,
            rank: u64,
            sheet: *mut u8,
            sheet_len: usize,
        ) -> u64;
        pub fn setupbook_count_on(
            table: *const u8,
            table_len: usize,
            m: u64,
            sheet: *mut u8,
            sheet_len: usize,
            answer: *mut u64,
        ) -> u64;
        pub fn setupbook_ruled_out(
            table: *const u8,
            table_len: usize,
            setup: u64,
            sheet: *mut u8,
            sheet_len: usize,
            answer: *mut u64,
        ) -> u64;
        pub fn setupbook_closest(
            table: *const u8,
            table_len: usize,
            setup: u64,
            sheet: *mut u8,
            sheet_len: usize,
            answer: *mut u64,
        ) -> u64;
        pub fn setupbook_unrank_list(
            table: *const u8,
            table_len: usize,
            ranks: *const u8,
            ranks_len: usize,
            sheet: *mut u8,
            sheet_len: usize,
            setups: *mut u8,
            setups_len: usize,
            answer: *mut u64,
        ) -> u64;
        pub fn setupbook_span_start(
            table: *const u8,
            table_len: usize,
            k: u64,
            j: u64,
            sheet: *mut u8,
            sheet_len: usize,
        ) -> u64;
        pub fn setupbook_span_size(
            table: *const u8,
            table_len: usize,
            k: u64,
            j: u64,
            sheet: *mut u8,
            sheet_len: usize,
        ) -> u64;
        pub fn setupbook_part_write(
            table: *const u8,
            table_len: usize,
            k: u64,
            j: u64,
            sheet: *mut u8,
            sheet_len: usize,
            out: *mut u8,
            out_len: usize,
        ) -> u64;
        pub fn setupbook_make_proper(
            table: *const u8,
            table_len: usize,
            sheet: *mut u8,
            sheet_len: usize,
            out: *mut u8,
            out_len: usize,
            answer: *mut u64,
        ) -> u64;
        pub fn setupbook_join(
            table1: *const u8,
            table1_len: usize,
            sheet1: *mut u8,
            sheet1_len: usize,
            table2: *const u8,
            table2_len: usize,
            sheet2: *mut u8,
            sheet2_len: usize,
            pairs: *mut u8,
            pairs_len: usize,
            out: *mut u8,
            out_len: usize,
            answer: *mut u64,
        ) -> u64;
        pub fn setupbook_share(
            table1: *const u8,
            table1_len: usize,
            sheet1: *mut u8,
            sheet1_len: usize,
            table2: *const u8,
            table2_len: usize,
            sheet2: *mut u8,
            sheet2_len: usize,
            pairs: *mut u8,
            pairs_len: usize,
            out: *mut u8,
            out_len: usize,
            answer: *mut u64,
        ) -> u64;
        pub fn setupbook_without(
            table1: *const u8,
            table1_len: usize,
            sheet1: *mut u8,
            sheet1_len: usize,
            table2: *const u8,
            table2_len: usize,
            sheet2: *mut u8,
            sheet2_len: usize,
            pairs: *mut u8,
            pairs_len: usize,
            out: *mut u8,
            out_len: usize,
            answer: *mut u64,
        ) -> u64;
    }
}

/// The memories lent to the library, for one call or for several, one after another.
pub struct Lent {
    seed: u64,
    table: Memory,
    sheet: Memory,
    out: Memory,
}

impl Lent {
    /// The random numbers place and guard the memories; the seed is for messages.
    pub fn new(seed: u64, rng: &mut Rng, table: &[u8], sheet: &[u8], out: &[u8]) -> Lent {
        let [table, sheet, out] = [table, sheet, out].map(|content| Memory::new(content, rng));
        Lent {
            seed,
            table,
            sheet,
            out,
        }
    }

    pub fn table(&self) -> &[u8] {
        self.table.content()
    }

    pub fn sheet(&self) -> &[u8] {
        self.sheet.content()
    }

    pub fn out(&self) -> &[u8] {
        self.out.content()
    }

    /// The random numbers place and guard the call's list, which is lent for this call only.
    pub fn run(&mut self, rng: &mut Rng, call: Call) -> Outcome {
        let mut list = Memory::new(call.list().0, rng);
        let answer = self.call(call, &mut list);
        for (unchanged, what) in [
            (self.table.is_unchanged(), "the table has"),
            (list.is_unchanged(), "the list has"),
            (self.sheet.guards_unchanged(), "bytes beside the sheet have"),
            (
                self.out.guards_unchanged(),
                "bytes beside the out memory have",
            ),
        ] {
            assert!(unchanged, "{what} changed\n{}", self.describe(call));
        }
        Outcome {
            answer,
            sheet: self.sheet().to_vec(),
            out: self.out().to_vec(),
        }
    }

    /// The case for a message.
    pub fn describe(&self, call: Call) -> String {
        let (sheet_len, out_len) = (self.sheet().len(), self.out().len());
        describe(self.seed, call, self.table(), sheet_len, out_len)
    }

    fn call(&mut self, call: Call, list: &mut Memory) -> Answer {
        let (table, sheet, out) = (self.table.lend(), self.sheet.lend(), self.out.lend());
        // SAFETY: each pointer is valid for its length, and the four memories lie apart.
        unsafe { call_with(call, table, list.lend(), sheet, out) }
    }
}

/// The library's answer to a call with these memories: pointers and lengths. The second memory is
/// where the call's list lies.
///
/// # Safety
///
/// Each pointer is valid for its length, for writing too but for the table's and the list's, and
/// the four memories lie apart.
pub unsafe fn call_with(
    call: Call,
    (t, t_len): (*mut u8, usize),
    (l, l_len): (*mut u8, usize),
    (s, s_len): (*mut u8, usize),
    (o, o_len): (*mut u8, usize),
) -> Answer {
    Answer::unpacked(match call {
        Call::Check => ffi::setupbook_check(t, t_len, s, s_len),
        Call::Count => ffi::setupbook_count(t, t_len, s, s_len),
        Call::Test { setup } => ffi::setupbook_test(t, t_len, setup, s, s_len),
        Call::Rank { setup } => ffi::setupbook_rank(t, t_len, setup, s, s_len),
        Call::Unrank { rank } => ffi::setupbook_unrank(t, t_len, rank, s, s_len),
        Call::CountOn { m } => {
            return in_words(|answer| ffi::setupbook_count_on(t, t_len, m, s, s_len, answer))
        }
        Call::RuledOut { setup } => {
            return in_words(|answer| ffi::setupbook_ruled_out(t, t_len, setup, s, s_len, answer))
        }
        Call::Closest { setup } => {
            return in_words(|answer| ffi::setupbook_closest(t, t_len, setup, s, s_len, answer))
        }
        Call::UnrankList { .. } => {
            return in_words(|answer| {
                ffi::setupbook_unrank_list(t, t_len, l, l_len, s, s_len, o, o_len, answer)
            })
        }
        Call::MakeProper => {
            return in_words(|answer| {
                ffi::setupbook_make_proper(t, t_len, s, s_len, o, o_len, answer)
            })
        }
        Call::SpanStart { k, j } => ffi::setupbook_span_start(t, t_len, k, j, s, s_len),
        Call::SpanSize { k, j } => ffi::setupbook_span_size(t, t_len, k, j, s, s_len),
        Call::PartWrite { k, j } => ffi::setupbook_part_write(t, t_len, k, j, s, s_len, o, o_len),
    })
}

/// What the library does to two tables, lent together with memories of these contents. The random
/// numbers place and guard them all; the seed is for messages.
pub fn combine(
    seed: u64,
    rng: &mut Rng,
    combination: Combination,
    before: &Contents,
) -> combination::Outcome {
    let mut first = Memory::new(combination.first, rng);
    let mut second = combination.second.map(|table| Memory::new(table, rng));
    let mut memories = before.each().map(|content| Memory::new(content, rng));
    let one = first.lend();
    let tables = [one, second.as_mut().map_or(one, Memory::lend)];
    let lent = memories.each_mut().map(Memory::lend);
    // SAFETY: each pointer is valid for its length, and the memories to be written lie apart.
    let answer = unsafe { combine_with(combination.operation, tables, lent) };
    let describe = || combination.describe(seed, &before.lengths());
    for table in [Some(&first), second.as_ref()].into_iter().flatten() {
        assert!(table.is_unchanged(), "a table has changed\n{}", describe());
    }
    for (name, memory) in memories.each().named() {
        let unchanged = memory.guards_unchanged();
        assert!(
            unchanged,
            "bytes beside {name} have changed\n{}",
            describe()
        );
    }
    combination::Outcome {
        answer,
        memories: memories.map(|memory| memory.content().to_vec()),
    }
}

/// The library's answer to an operation on two tables with these memories: pointers and lengths.
///
/// # Safety
///
/// Each pointer is valid for its length, for writing too but for the tables', and the memories lie
/// apart; the two tables may be the same.
pub unsafe fn combine_with(
    operation: Operation,
    [(t1, t1_len), (t2, t2_len)]: [(*mut u8, usize); 2],
    lent: Memories<(*mut u8, usize)>,
) -> Answer {
    let function = match operation {
        Operation::Join => ffi::setupbook_join,
        Operation::Share => ffi::setupbook_share,
        Operation::Without => ffi::setupbook_without,
    };
    let [(s1, s1_len), (s2, s2_len)] = lent.sheets;
    let ((p, p_len), (o, o_len)) = (lent.pairs, lent.out);
    in_words(|answer| {
        function(
            t1, t1_len, s1, s1_len, t2, t2_len, s2, s2_len, p, p_len, o, o_len, answer,
        )
    })
}

const UNWRITTEN: u64 = 0xA5A5_A5A5_A5A5_A5A5;

/// The answer of a function that writes three words and returns a status. A word on each side of
/// the three has to stay.
fn in_words(function: impl FnOnce(*mut u64) -> u64) -> Answer {
    let mut memory = [UNWRITTEN; 5];
    let status = function(memory.as_mut_ptr().wrapping_add(1));
    let [before, words @ .., behind] = memory;
    let beside = [before, behind];
    assert_eq!(beside, [UNWRITTEN; 2], "words beside the answer");
    Answer { status, words }
}
