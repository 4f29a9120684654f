//! The calls that are compared, and what a call leaves behind.

use std::fmt;

use crate::layout::words_of;

#[derive(Clone, Copy, Debug, PartialEq, Eq)]
pub enum Call<'a> {
    Check,
    Count,
    CountOn { m: u64 },
    Test { setup: u64 },
    RuledOut { setup: u64 },
    Closest { setup: u64 },
    Rank { setup: u64 },
    Unrank { rank: u64 },
    UnrankList { ranks: List<'a> },
    SpanStart { k: u64, j: u64 },
    SpanSize { k: u64, j: u64 },
    PartWrite { k: u64, j: u64 },
    MakeProper,
}

impl<'a> Call<'a> {
    /// How many places of the sheet the call requires, for a table of `node_count` records.
    pub fn places(self, node_count: u64) -> u64 {
        match self {
            Call::CountOn { .. } => 64 * (node_count + 1),
            Call::Closest { .. } => 2 * (node_count + 1),
            Call::PartWrite { .. } => node_count + 512,
            Call::MakeProper => 8 * node_count + 512,
            _ => node_count + 1,
        }
    }

    /// The list that the call reads; an empty one, if it reads none.
    pub fn list(self) -> List<'a> {
        match self {
            Call::UnrankList { ranks } => ranks,
            _ => List(&[]),
        }
    }
}

/// The bytes of a list of numbers, 8 each. Up to seven spare bytes at the end belong to no item.
#[derive(Clone, Copy, PartialEq, Eq)]
pub struct List<'a>(pub &'a [u8]);

impl List<'_> {
    pub fn items(self) -> Vec<u64> {
        words_of(self.0)
    }
}

impl fmt::Debug for List<'_> {
    fn fmt(&self, f: &mut fmt::Formatter) -> fmt::Result {
        f.write_str(&first_words(self.0))
    }
}

/// A refusal: its number, its place, and the table that it names, 1 or 2, or 0 if it names none.
#[derive(Clone, Copy, Debug, PartialEq, Eq)]
pub struct Refusal {
    pub number: u64,
    pub place: u64,
    pub table: u64,
}

impl Refusal {
    /// One that names no table.
    pub fn new(number: u64, place: u64) -> Refusal {
        Refusal {
            number,
            place,
            table: 0,
        }
    }
}

/// An answer: 0 and the words of the result, or the number of a refusal, its place and its table. A
/// word that is not needed is 0.
#[derive(Clone, Copy, PartialEq, Eq)]
pub struct Answer {
    pub status: u64,
    pub words: [u64; 3],
}

const FIRST_REFUSAL: u64 = (1 << 63) + (1 << 32);

impl Answer {
    /// A result of one word.
    pub fn result(value: u64) -> Answer {
        Answer::found([value, 0, 0])
    }

    /// A result of three words.
    pub fn found(words: [u64; 3]) -> Answer {
        Answer { status: 0, words }
    }

    pub fn refused(refusal: Refusal) -> Answer {
        Answer {
            status: refusal.number,
            words: [refusal.place, refusal.table, 0],
        }
    }

    /// What a 64-bit number stands for: a result, or 2^63 + 2^32 * refusal + place. No two stand
    /// for the same. The count or size 2^63 is no refusal, because a refusal number is at least 1.
    pub fn unpacked(number: u64) -> Answer {
        if number < FIRST_REFUSAL {
            return Answer::result(number);
        }
        let rest = number & !(1 << 63);
        Answer::refused(Refusal::new(rest >> 32, rest & 0xFFFF_FFFF))
    }

    pub fn refusal(self) -> Option<Refusal> {
        (self.status > 0).then_some(Refusal {
            number: self.status,
            place: self.words[0],
            table: self.words[1],
        })
    }

    /// The first word of the result; it has not been refused.
    pub fn value(self) -> u64 {
        assert!(self.status == 0, "{self:?}");
        self.words[0]
    }
}

impl fmt::Debug for Answer {
    fn fmt(&self, f: &mut fmt::Formatter) -> fmt::Result {
        let [first, more @ ..] = self.words;
        match self.status {
            0 => write!(f, "{first}")?,
            number => write!(f, "refusal {number} at {first}")?,
        }
        match more {
            [0, 0] => Ok(()),
            _ => write!(f, ", then {more:?}"),
        }
    }
}

/// The answer of a call, and the whole sheet and out memory afterwards.
#[derive(Clone, Debug, PartialEq, Eq)]
pub struct Outcome {
    pub answer: Answer,
    pub sheet: Vec<u8>,
    pub out: Vec<u8>,
}

/// A case for a message: the table's first words, and the lengths.
pub fn describe(seed: u64, call: Call, table: &[u8], sheet_len: usize, out_len: usize) -> String {
    format!(
        "seed {seed}, {call:?}\ntable of {}\nsheet of {sheet_len} bytes, out memory of {out_len} bytes",
        first_words(table),
    )
}

/// A byte row for a message: its length and its first words.
pub fn first_words(bytes: &[u8]) -> String {
    let words = words_of(bytes);
    let shown: Vec<String> = words
        .iter()
        .take(20)
        .map(|word| format!("{word:016X}"))
        .collect();
    let more = if words.len() > 20 { " ..." } else { "" };
    format!("{} bytes: {}{more}", bytes.len(), shown.join(" "))
}
