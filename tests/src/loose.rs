//! Loose tables after the paper: the rules of their records, and the proper table that permits the
//! same. It is made from the root down: a node whose record has been made before is that one, and
//! all are put in order at the end.

use std::cmp::Ordering;
use std::collections::HashMap;

use crate::layout::{fields, word};
use crate::reading::{Edge, Record, Table};

/// The rules of 4 and 6 that record k of a loose table breaks, in the paper's order.
pub fn faults(table: &Table, k: u64) -> Vec<u64> {
    let Record {
        height,
        then_edge,
        else_edge,
    } = table.record(k);
    let is_astray = |edge: Edge| leads_astray(table, height, edge);
    let broken = [
        (4, height == 0 || height > table.n),
        (6, is_astray(then_edge) || is_astray(else_edge)),
    ];
    let rules = broken.into_iter().filter(|rule| rule.1);
    rules.map(|rule| rule.0).collect()
}

/// Rule 6 for one edge of a record of this height: it leads to a node above N, or to one whose
/// height is not below. That height is read as it stands, whether or not its record breaks rule 4;
/// where the record is missing, there is none.
fn leads_astray(table: &Table, height: u64, edge: Edge) -> bool {
    let is_there = edge.node <= table.last();
    edge.node > table.node_count || (is_there && table.height(edge.node) >= height)
}

/// The words of the proper table with the same n and the same permitted setups, of a table that
/// breaks neither rule and whose root edge leads to no node above N.
pub fn proper(table: &Table) -> Vec<u64> {
    let mut nodes = Nodes {
        records: vec![0],
        numbers: HashMap::new(),
    };
    let mut found = vec![None; table.words.len()];
    let root = nodes.edge_for(table, table.root, &mut found);
    nodes.table(table.n, root)
}

/// The proper nodes made so far, from number 1 on, no two of them with the same record. Node 0 is
/// the sink, as a record of height 0. Edges are values, with these numbers.
struct Nodes {
    records: Vec<u64>,
    numbers: HashMap<u64, u64>,
}

impl Nodes {
    /// The edge for all that an edge of the loose table permits. What has been found for plain
    /// edges is known, by the node.
    fn edge_for(&mut self, table: &Table, edge: Edge, found: &mut [Option<u64>]) -> u64 {
        let (node, flag) = (edge.node as usize, u64::from(edge.flag));
        if node == 0 {
            return flag;
        }
        let plain = found[node].unwrap_or_else(|| {
            let record = table.record(edge.node);
            let then_edge = self.edge_for(table, record.then_edge, found);
            let else_edge = self.edge_for(table, record.else_edge, found);
            self.edge_to(record.height, then_edge, else_edge)
        });
        found[node] = Some(plain);
        plain ^ flag
    }

    /// The edge for what a record with these edges permits: one of them if they are equal, and
    /// otherwise an edge to a node whose then-edge is plain.
    fn edge_to(&mut self, height: u64, then_edge: u64, else_edge: u64) -> u64 {
        if then_edge == else_edge {
            return then_edge;
        }
        let flag = then_edge % 2;
        let record = word(height, then_edge ^ flag, else_edge ^ flag);
        let node = *self.numbers.entry(record).or_insert_with(|| {
            self.records.push(record);
            self.records.len() as u64 - 1
        });
        2 * node + flag
    }

    /// The words of the table of all nodes, to which the root edge leads.
    fn table(&self, n: u64, root: u64) -> Vec<u64> {
        let mut order: Vec<u64> = (0..self.records.len() as u64).collect();
        order.sort_by(|&one, &other| self.compare(one, other));
        let mut numbers = vec![0; order.len()];
        for (number, &node) in (0..).zip(&order) {
            numbers[node as usize] = number;
        }
        let edge = |edge: u64| 2 * numbers[edge as usize / 2] + edge % 2;
        let record = |&node: &u64| {
            let (height, then_edge, else_edge) = fields(self.records[node as usize]);
            word(height, edge(then_edge), edge(else_edge))
        };
        let mut words: Vec<u64> = order.iter().map(record).collect();
        words[0] = word(n, words.len() as u64 - 1, edge(root));
        words
    }

    /// The order of two nodes in a table: that of their records as words, by height, then-edge and
    /// else-edge, where the nodes below are in this order themselves.
    fn compare(&self, one: u64, other: u64) -> Ordering {
        if one == other {
            return Ordering::Equal;
        }
        let edges = |one: u64, other: u64| {
            let nodes = self.compare(one / 2, other / 2);
            nodes.then((one % 2).cmp(&(other % 2)))
        };
        let [one, other] = [one, other].map(|node| fields(self.records[node as usize]));
        let heights = one.0.cmp(&other.0);
        heights
            .then_with(|| edges(one.1, other.1))
            .then_with(|| edges(one.2, other.2))
    }
}
