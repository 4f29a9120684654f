//! The table that part-write writes, made by a way of its own: the part is built as a decision
//! diagram without flags, restricted by ranks, and only that diagram is written as a table.

use std::ops::Range;

use crate::diagram::{Diagram, ALWAYS, NEVER};
use crate::reading::{Edge, Table};

/// The words of the table with the same n that permits the setups of `table` whose rank is in
/// `ranks`, with as few records as there can be, even above 65,535.
pub fn of_ranks(table: &Table, counts: &[u128], ranks: Range<u128>) -> Vec<u64> {
    let mut restriction = Restriction {
        table,
        counts,
        diagram: Diagram::default(),
        whole: vec![None; 2 * counts.len()],
    };
    let root = restriction.kept(table.root, table.n, ranks);
    restriction.diagram.write(table.n, root)
}

/// Builds what is left of a table's diagram.
struct Restriction<'a> {
    table: &'a Table,
    counts: &'a [u128],
    diagram: Diagram,
    /// The node for all that an edge permits, by the edge's value.
    whole: Vec<Option<u64>>,
}

impl Restriction<'_> {
    /// The node for those of the 2^height settings below an edge that are permitted and have a
    /// rank in `ranks` among the permitted ones.
    fn kept(&mut self, edge: Edge, height: u64, ranks: Range<u128>) -> u64 {
        let count = |edge, height| self.table.count_under(edge, height, self.counts);
        if ranks.is_empty() {
            return NEVER;
        }
        if ranks == (0..count(edge, height)) {
            return self.whole(edge);
        }
        let low = self.table.follow(edge, 0, height - 1);
        let high = self.table.follow(edge, 1 << (height - 1), height - 1);
        let first_of_high = count(low, height - 1);
        let Range { start, end } = ranks;
        let low_ranks = start.min(first_of_high)..end.min(first_of_high);
        let high_ranks = start.saturating_sub(first_of_high)..end.saturating_sub(first_of_high);
        let low = self.kept(low, height - 1, low_ranks);
        let high = self.kept(high, height - 1, high_ranks);
        self.diagram.number(height, high, low)
    }

    /// The node for all that an edge permits.
    fn whole(&mut self, edge: Edge) -> u64 {
        let height = self.table.height(edge.node);
        if height == 0 {
            return if edge.flag { NEVER } else { ALWAYS };
        }
        let value = 2 * edge.node as usize + usize::from(edge.flag);
        if let Some(number) = self.whole[value] {
            return number;
        }
        let low = self.whole(self.table.follow(edge, 0, height - 1));
        let high = self.whole(self.table.follow(edge, 1 << (height - 1), height - 1));
        let number = self.diagram.number(height, high, low);
        self.whole[value] = Some(number);
        number
    }
}
