//! Calls on two tables for the run over raw bytes: their lengths, and their memories, each beside a
//! guard page.

use crate::call::Answer;
use crate::combination::{Combination, Contents, Memories, Outcome};
use crate::library;
use crate::pages::{Guard, Pages};
use crate::rng::Rng;
use crate::sheets;
use crate::tally::is_listed_of_two;

/// The lengths of the memories: enough more often than not, about what is needed, or any; but none is
/// longer than the longest.
pub fn lengths(
    rng: &mut Rng,
    needed: Memories<usize>,
    longest: Memories<usize>,
) -> Memories<usize> {
    let lengths = needed.map(|needed| match rng.below(8) {
        0 => rng.index(300),
        1..=3 => sheets::random_length(rng, needed),
        _ => sheets::served_length(rng, needed),
    });
    Memories {
        pairs: lengths.pairs.min(longest.pairs),
        out: lengths.out.min(longest.out),
        ..lengths
    }
}

/// The pages in which tables and memories lie.
pub struct Places {
    tables: [Pages; 2],
    memories: Memories<Pages>,
}

impl Places {
    /// For tables and memories of up to so many bytes.
    pub fn new(longest_table: usize, longest: Memories<usize>) -> Places {
        Places {
            tables: [longest_table; 2].map(Pages::new),
            memories: longest.map(Pages::new),
        }
    }

    /// What the library does, with a guard page at the same end of all memories. A fault that shows
    /// without the paper comes back as a text.
    pub fn run(
        &mut self,
        combination: Combination,
        before: &Contents,
        guard: Guard,
    ) -> Result<Outcome, String> {
        let tables = [combination.first, combination.second.unwrap_or(&[])];
        for (pages, content) in self.tables.iter_mut().zip(tables) {
            pages.put(content, guard);
        }
        let pages = self.memories.each_mut().named();
        for ((_, pages), (_, content)) in pages.into_iter().zip(before.each().named()) {
            pages.put(content, guard);
        }
        let answer = self.lend(combination);
        let is_listed = is_listed_of_two(combination.operation, answer);
        let is_unchanged = self.tables.each_ref().map(Pages::content) == tables;
        for (passed, fault) in [
            (is_listed, "an answer that is not listed"),
            (is_unchanged, "a table has changed"),
            (
                self.beside_unchanged(),
                "bytes beside a memory have changed",
            ),
        ] {
            if !passed {
                return Err(format!("{fault}: {answer:?}"));
            }
        }
        let memories = self.memories.each().map(|pages| pages.content().to_vec());
        Ok(Outcome { answer, memories })
    }

    /// The library's answer. The tables cannot be written meanwhile.
    fn lend(&mut self, combination: Combination) -> Answer {
        let [first, other] = self.tables.each_mut().map(Pages::lend);
        let second = combination.second.map_or(first, |_| other);
        let lent = self.memories.each_mut().map(Pages::lend);
        self.let_write_tables(false);
        // SAFETY: each pointer is valid for its length, and the memories to be written lie apart.
        let answer = unsafe { library::combine_with(combination.operation, [first, second], lent) };
        self.let_write_tables(true);
        answer
    }

    fn let_write_tables(&mut self, writable: bool) {
        for pages in &mut self.tables {
            pages.let_write(writable);
        }
    }

    fn beside_unchanged(&self) -> bool {
        let mut memories = self.memories.each().named().into_iter();
        self.tables.iter().all(Pages::beside_unchanged)
            && memories.all(|(_, pages)| pages.beside_unchanged())
    }
}
