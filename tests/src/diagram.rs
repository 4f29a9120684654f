//! Decision diagrams without flags, from which tables are written.

use std::collections::{BTreeMap, HashMap};

use crate::layout::{fields, word};

pub const NEVER: u64 = 0;
pub const ALWAYS: u64 = 1;

/// Nodes without flags, which all permit different setups. A node is a word with the fields
/// height, node if the setting is 1, node if it is 0; the first has number 2.
#[derive(Default)]
pub struct Diagram {
    nodes: Vec<u64>,
    numbers: HashMap<u64, u64>,
}

impl Diagram {
    /// The number of the node with these fields, or the one that permits the same.
    pub fn number(&mut self, height: u64, high: u64, low: u64) -> u64 {
        if high == low {
            return high;
        }
        let node = word(height, high, low);
        *self.numbers.entry(node).or_insert_with(|| {
            self.nodes.push(node);
            self.nodes.len() as u64 + 1
        })
    }

    /// The sinks have height 0.
    pub fn height(&self, number: u64) -> u64 {
        if number <= ALWAYS {
            0
        } else {
            self.node(number).0
        }
    }

    /// The node reached by a setting of this height, which is that of the node or above it: a node
    /// below it stays.
    pub fn follow(&self, number: u64, height: u64, on: bool) -> u64 {
        if self.height(number) < height {
            return number;
        }
        let (_, high, low) = self.node(number);
        if on {
            high
        } else {
            low
        }
    }

    /// The fields of a node.
    fn node(&self, number: u64) -> (u64, u64, u64) {
        fields(self.nodes[number as usize - 2])
    }

    /// The numbers of the nodes under `root`, by height.
    fn levels(&self, root: u64) -> BTreeMap<u64, Vec<u64>> {
        let mut levels: BTreeMap<u64, Vec<u64>> = BTreeMap::new();
        let mut seen = vec![false; self.nodes.len() + 2];
        let mut open = vec![root];
        while let Some(number) = open.pop() {
            if number > ALWAYS && !seen[number as usize] {
                seen[number as usize] = true;
                let (height, high, low) = self.node(number);
                levels.entry(height).or_default().push(number);
                open.extend([high, low]);
            }
        }
        levels
    }

    /// The table of what `root` permits. A node and its opposite share a record, the one whose
    /// then-edge has no flag; the records of a height are numbered in their order as words.
    pub fn write(&self, n: u64, root: u64) -> Vec<u64> {
        let mut words = vec![0];
        let mut edges = vec![0; self.nodes.len() + 2];
        edges[NEVER as usize] = 1;
        for (height, numbers) in self.levels(root) {
            let record = |&number: &u64| {
                let (_, high, low) = self.node(number);
                let (then_edge, else_edge) = (edges[high as usize], edges[low as usize]);
                let flag = then_edge % 2;
                let record = word(height, then_edge ^ flag, else_edge ^ flag);
                (record, flag, number)
            };
            let mut records: Vec<(u64, u64, u64)> = numbers.iter().map(record).collect();
            records.sort();
            for (record, flag, number) in records {
                if words.last() != Some(&record) {
                    words.push(record);
                }
                edges[number as usize] = 2 * (words.len() as u64 - 1) + flag;
            }
        }
        words[0] = word(n, words.len() as u64 - 1, edges[root as usize]);
        words
    }
}
