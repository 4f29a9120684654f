//! The calls on two tables, and what such a call leaves behind.

use crate::call::{first_words, Answer};

#[derive(Clone, Copy, Debug, PartialEq, Eq)]
pub enum Operation {
    Join,
    Share,
    Without,
}

impl Operation {
    pub const ALL: [Operation; 3] = [Operation::Join, Operation::Share, Operation::Without];

    /// Whether the result permits a setup, by whether the first table and the second do.
    pub fn permits(self, first: bool, second: bool) -> bool {
        match self {
            Operation::Join => first || second,
            Operation::Share => first && second,
            Operation::Without => first && !second,
        }
    }
}

#[derive(Clone, Copy)]
pub struct Combination<'a> {
    pub operation: Operation,
    pub first: &'a [u8],
    /// The second table. If there is none, the first one's memory is given twice.
    pub second: Option<&'a [u8]>,
}

impl<'a> Combination<'a> {
    pub fn tables(&self) -> [&'a [u8]; 2] {
        [self.first, self.second.unwrap_or(self.first)]
    }

    /// A case for a message: the tables' first words, and the lengths.
    pub fn describe(&self, seed: u64, lengths: &Memories<usize>) -> String {
        let second = match self.second {
            Some(table) => format!("second table of {}", first_words(table)),
            None => String::from("the same memory as second table"),
        };
        format!(
            "seed {seed}, {:?}\nfirst table of {}\n{second}\nlengths in bytes: {lengths:?}",
            self.operation,
            first_words(self.first),
        )
    }
}

/// One of each of the memories that a call is lent beside its tables: the contents, the lengths, or
/// where they lie.
#[derive(Clone, Copy, Debug, PartialEq, Eq)]
pub struct Memories<T> {
    pub sheets: [T; 2],
    pub pairs: T,
    pub out: T,
}

impl<T> Memories<T> {
    pub fn map<U>(self, mut f: impl FnMut(T) -> U) -> Memories<U> {
        Memories {
            sheets: self.sheets.map(&mut f),
            pairs: f(self.pairs),
            out: f(self.out),
        }
    }

    pub fn each(&self) -> Memories<&T> {
        Memories {
            sheets: self.sheets.each_ref(),
            pairs: &self.pairs,
            out: &self.out,
        }
    }

    pub fn each_mut(&mut self) -> Memories<&mut T> {
        Memories {
            sheets: self.sheets.each_mut(),
            pairs: &mut self.pairs,
            out: &mut self.out,
        }
    }

    /// Each with its name.
    pub fn named(self) -> [(&'static str, T); 4] {
        let [first, second] = self.sheets;
        [
            ("first sheets", first),
            ("second sheets", second),
            ("pair sheets", self.pairs),
            ("out memories", self.out),
        ]
    }
}

pub type Contents = Memories<Vec<u8>>;

impl Contents {
    pub fn lengths(&self) -> Memories<usize> {
        self.each().map(Vec::len)
    }
}

/// The answer of a call, and the whole of every memory afterwards.
#[derive(Clone, Debug, PartialEq, Eq)]
pub struct Outcome {
    pub answer: Answer,
    pub memories: Contents,
}

impl Outcome {
    /// The table that the call has written; it has not been refused.
    pub fn written(&self) -> &[u8] {
        &self.memories.out[..self.answer.value() as usize]
    }
}
