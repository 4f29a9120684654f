//! Runs a call on two tables in the library and after the paper and compares the answer and every
//! memory.

use crate::combination::{Combination, Contents, Memories, Operation, Outcome};
use crate::combined::Reading;
use crate::comparison::{first_difference, Comparison};
use crate::layout::bytes_of;
use crate::library;
use crate::sheets::{self, Length};
use crate::tables;
use crate::tally::{name_of_two, Sheet};

impl Comparison {
    /// One case. Gives back what the library has done.
    pub fn combine(&mut self, reading: &Reading, before: &Contents) -> Outcome {
        let combination = reading.combination;
        let expected = reading.expect(before);
        let found = library::combine(self.seed, &mut self.lending, combination, before);
        if found != expected.outcome {
            panic!(
                "{}\n{}",
                combination.describe(self.seed, &before.lengths()),
                difference(&expected.outcome, &found)
            );
        }
        let name = name_of_two(combination.operation);
        let filled = filled_lengths(before, &reading.needed());
        self.tally.note(name, &expected.refusals, filled);
        found
    }

    /// A case with memories of these lengths and of random contents.
    pub fn combine_lengths(&mut self, reading: &Reading, lengths: Memories<usize>) -> Outcome {
        let before = lengths.map(|len| sheets::random_content(&mut self.rng, len));
        self.combine(reading, &before)
    }

    /// A case with memories that are long enough.
    pub fn combine_served(&mut self, reading: &Reading) -> Outcome {
        let lengths = reading.needed();
        let lengths = lengths.map(|needed| sheets::served_length(&mut self.rng, needed));
        self.combine_lengths(reading, lengths)
    }

    /// A case with memories of any length: of each of them about two in three are long enough.
    pub fn combine_any(&mut self, reading: &Reading) -> Outcome {
        let lengths = reading.needed();
        let lengths = lengths.map(|needed| sheets::random_length(&mut self.rng, needed));
        self.combine_lengths(reading, lengths)
    }

    /// All three operations on two tables, each with memories that are long enough and with some of
    /// any length.
    pub fn combine_all(&mut self, first: &[u8], second: Option<&[u8]>) {
        for reading in &Reading::all(first, second) {
            self.combine_served(reading);
            self.combine_any(reading);
        }
    }

    /// The table that the library writes, in memories that are long enough.
    pub fn written_combination(
        &mut self,
        operation: Operation,
        first: &[u8],
        second: &[u8],
    ) -> Vec<u8> {
        let reading = Reading::new(Combination {
            operation,
            first,
            second: Some(second),
        });
        self.combine_served(&reading).written().to_vec()
    }
}

/// A second table for one with n = 63 whose first settings change nothing: the result has `more`
/// records more. It is that table where the first settings are all 1, and a sink elsewhere.
pub fn on_top(operation: Operation, more: u64) -> Vec<u8> {
    let flag = u64::from(operation != Operation::Share);
    let chain = tables::chain(more, true, flag);
    bytes_of(&tables::with_settings_below(&chain, 63 - more))
}

/// The lengths of those sheets that have no zero byte.
pub fn filled_lengths(before: &Contents, needed: &Memories<usize>) -> Vec<(Sheet, Length)> {
    let sheets = [
        (Sheet::Of(1), &before.sheets[0], needed.sheets[0]),
        (Sheet::Of(2), &before.sheets[1], needed.sheets[1]),
        (Sheet::Pairs, &before.pairs, needed.pairs),
    ];
    let lengths = sheets.into_iter().filter_map(|(sheet, content, needed)| {
        let length = sheets::filled_length(content, needed)?;
        Some((sheet, length))
    });
    lengths.collect()
}

/// Both answers, and where the memories differ.
pub fn difference(expected: &Outcome, found: &Outcome) -> String {
    let mut text = format!(
        "by the paper:   {:?}\nby the library: {:?}",
        expected.answer, found.answer,
    );
    let by_paper = expected.memories.each().named();
    let by_library = found.memories.each().named();
    for ((name, by_paper), (_, by_library)) in by_paper.into_iter().zip(by_library) {
        text += &first_difference(name, by_paper, by_library);
    }
    text
}
