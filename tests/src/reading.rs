//! A table read after the paper: its records and their faults, which setups are permitted, and
//! what the counts, ranks and closest setups are. Numbers are u128 where they may grow.

use crate::distance::distance;
use crate::layout::{fields, words_of};
use crate::pascal;

#[derive(Clone, Copy, PartialEq, Eq, PartialOrd, Ord)]
pub struct Edge {
    pub node: u64,
    pub flag: bool,
}

#[derive(Clone, Copy)]
pub struct Record {
    pub height: u64,
    pub then_edge: Edge,
    pub else_edge: Edge,
}

/// The parts of a byte row of at least 8 bytes. `words[k]` is record k; if the length is wrong
/// there may be more or fewer of them than `node_count` says.
pub struct Table {
    pub n: u64,
    pub node_count: u64,
    pub root: Edge,
    pub words: Vec<u64>,
}

fn edge(value: u64) -> Edge {
    Edge {
        node: value / 2,
        flag: value % 2 == 1,
    }
}

impl Table {
    pub fn read(bytes: &[u8]) -> Table {
        let words = words_of(bytes);
        let (n, node_count, root) = fields(words[0]);
        Table {
            n,
            node_count,
            root: edge(root),
            words,
        }
    }

    pub fn record(&self, k: u64) -> Record {
        let (height, then_edge, else_edge) = fields(self.words[k as usize]);
        Record {
            height,
            then_edge: edge(then_edge),
            else_edge: edge(else_edge),
        }
    }

    /// The sink has height 0.
    pub fn height(&self, node: u64) -> u64 {
        if node == 0 {
            0
        } else {
            self.record(node).height
        }
    }

    /// The last record: N, unless records are missing.
    pub fn last(&self) -> u64 {
        self.node_count.min(self.words.len() as u64 - 1)
    }

    /// Rule 6 for one edge of record k: a node not below k, or one whose height is not below the
    /// record's.
    fn leads_too_high(&self, k: u64, edge: Edge) -> bool {
        edge.node >= k || self.height(edge.node) >= self.record(k).height
    }

    /// The rules of 4 to 8 that record k breaks, in the paper's order.
    pub fn faults(&self, k: u64) -> Vec<u64> {
        let record = self.record(k);
        let broken = [
            (4, record.height == 0 || record.height > self.n),
            (
                6,
                self.leads_too_high(k, record.then_edge)
                    || self.leads_too_high(k, record.else_edge),
            ),
            (
                5,
                k > 1 && self.words[k as usize] <= self.words[k as usize - 1],
            ),
            (7, record.then_edge.flag),
            (8, record.then_edge == record.else_edge),
        ];
        broken
            .iter()
            .filter(|rule| rule.1)
            .map(|rule| rule.0)
            .collect()
    }

    /// The lowest record below `last` that no record names.
    pub fn lowest_unnamed(&self, last: u64) -> Option<u64> {
        let mut named = vec![false; last as usize + 1];
        for k in 1..=last {
            let record = self.record(k);
            for edge in [record.then_edge, record.else_edge] {
                if edge.node <= last {
                    named[edge.node as usize] = true;
                }
            }
        }
        (1..last).find(|&k| !named[k as usize])
    }

    /// The number of set flags from `edge` on, for a number whose bit of weight 2^(h-1) belongs
    /// to height h, is even.
    pub fn permits(&self, edge: Edge, settings: u64) -> bool {
        !self.follow(edge, settings, 0).flag
    }

    /// The edge reached from `edge` at the first node of at most the given height. Its flag is
    /// whether the number of set flags passed is odd.
    pub fn follow(&self, edge: Edge, settings: u64, height: u64) -> Edge {
        let mut edge = edge;
        while self.height(edge.node) > height {
            let record = self.record(edge.node);
            let bit = (settings >> (record.height - 1)) & 1;
            let next = if bit == 1 {
                record.then_edge
            } else {
                record.else_edge
            };
            edge = Edge {
                node: next.node,
                flag: edge.flag != next.flag,
            };
        }
        edge
    }

    /// How many of the 2^height settings below an edge are permitted: under a flag 2^h minus the
    /// place of its node of height h, and twice that for each setting between.
    pub fn count_under(&self, edge: Edge, height: u64, counts: &[u128]) -> u128 {
        let plain = counts[edge.node as usize];
        let own = self.height(edge.node);
        let count = if edge.flag { (1 << own) - plain } else { plain };
        count << (height - own)
    }

    /// The records, those of the lowest nodes first.
    fn upward(&self) -> Vec<u64> {
        let mut upward: Vec<u64> = (1..=self.node_count).collect();
        upward.sort_by_key(|&k| self.height(k));
        upward
    }

    /// Places 0 to N of a table whose edges lead to smaller heights.
    pub fn counts(&self) -> Vec<u128> {
        let mut counts = vec![1; self.node_count as usize + 1];
        for k in self.upward() {
            let record = self.record(k);
            let edges = [record.then_edge, record.else_edge];
            counts[k as usize] = edges
                .map(|edge| self.count_under(edge, record.height - 1, &counts))
                .iter()
                .sum();
        }
        counts
    }

    /// C, from the counts.
    pub fn total(&self, counts: &[u128]) -> u128 {
        self.count_under(self.root, self.n, counts)
    }

    /// What `count_under` counts, by how many settings are on: entry i of a row is how many have
    /// exactly i on, at most the triangle's. All settings of a gap are permitted.
    fn row_under(&self, edge: Edge, height: u64, rows: &[Vec<u64>]) -> Vec<u64> {
        let plain = &rows[edge.node as usize];
        let own = self.height(edge.node);
        let gap = pascal::row(height - own);
        match edge.flag {
            true => both(&pascal::rest(plain), gap),
            false => both(plain, gap),
        }
    }

    /// For each node the row of what is permitted under a plain edge to it.
    pub fn rows(&self) -> Vec<Vec<u64>> {
        let mut rows = vec![vec![1]; self.node_count as usize + 1];
        for k in self.upward() {
            let record = self.record(k);
            let below = |edge| self.row_under(edge, record.height - 1, &rows);
            let on = both(&below(record.then_edge), &[0, 1]);
            let off = both(&below(record.else_edge), &[1, 0]);
            rows[k as usize] = on.iter().zip(off).map(|(on, off)| on + off).collect();
        }
        rows
    }

    /// How many permitted setups have exactly m settings on.
    pub fn count_on(&self, m: u64) -> u64 {
        let row = self.row_under(self.root, self.n, &self.rows());
        row.get(m as usize).copied().unwrap_or(0)
    }

    /// In how many settings the permitted ones of the 2^height settings below an edge differ from a
    /// setup: bit d is whether one of them differs in exactly d. Each setting of a gap does or does
    /// not.
    fn distances_under(&self, edge: Edge, height: u64, distances: &[[u64; 2]]) -> u64 {
        let own = distances[edge.node as usize][usize::from(edge.flag)];
        let gap = height - self.height(edge.node);
        (0..gap).fold(own, |set, _| set | (set << 1))
    }

    /// For each node this set under a plain edge to it, and that under a flagged one.
    fn distances(&self, setup: u64) -> Vec<[u64; 2]> {
        let mut distances = vec![[1, 0]; self.node_count as usize + 1];
        for k in self.upward() {
            let below = self.height(k) - 1;
            let bit = (setup >> below) & 1;
            distances[k as usize] = [false, true].map(|flag| {
                let node = Edge { node: k, flag };
                let [kept, turned] = [bit, 1 - bit].map(|bit| {
                    let edge = self.follow(node, bit << below, below);
                    self.distances_under(edge, below, &distances)
                });
                kept | (turned << 1)
            });
        }
        distances
    }

    /// The smallest of the permitted setups that differ from this one in the fewest settings, if any
    /// is permitted. It is found setting by setting, off if one that begins so differs in no more.
    pub fn closest(&self, setup: u64) -> Option<u64> {
        let distances = self.distances(setup);
        // As before, of the 2^height setups from `first` on, and in all their settings.
        let in_block = |first: u64, height: u64| {
            let edge = self.follow(self.root, first, height);
            let above = distance(first >> height, setup >> height);
            self.distances_under(edge, height, &distances) << above
        };
        let all = in_block(0, self.n);
        // The lowest bit alone.
        let fewest = all & all.wrapping_neg();
        let next = |found, height| match in_block(found, height) & fewest {
            0 => found + (1 << height),
            _ => found,
        };
        (fewest > 0).then(|| (0..self.n).rev().fold(0, next))
    }

    /// How many of the 2^height setups from `first` on are permitted. `first` is a multiple of
    /// 2^height, so they agree in all settings above that height.
    fn permitted_in_block(&self, first: u64, height: u64, counts: &[u128]) -> u128 {
        self.count_under(self.follow(self.root, first, height), height, counts)
    }

    /// How many permitted setups begin with the same first p settings as this one.
    pub fn permitted_beginning(&self, setup: u64, p: u64, counts: &[u128]) -> u128 {
        let left = self.n - p;
        self.permitted_in_block(setup >> left << left, left, counts)
    }

    /// How many permitted setups are below `limit`, which is at most 2^n: the rank of `limit` if
    /// it is permitted. Each set bit of `limit` stands for a block, the setups that have 0 there
    /// and agree with `limit` above it.
    pub fn permitted_below(&self, limit: u64, counts: &[u128]) -> u128 {
        (0..=self.n)
            .filter(|height| (limit >> height) & 1 == 1)
            .map(|height| {
                let first = ((limit >> height) - 1) << height;
                self.permitted_in_block(first, height, counts)
            })
            .sum()
    }

    /// The permitted setup with this rank, which is below C: the smallest setup up to which more
    /// than `rank` are permitted, found by halving.
    pub fn setup_number(&self, rank: u64, counts: &[u128]) -> u64 {
        let (mut low, mut high) = (0, (1 << self.n) - 1);
        while low < high {
            let middle = low + (high - low) / 2;
            if self.permitted_below(middle + 1, counts) > u128::from(rank) {
                high = middle;
            } else {
                low = middle + 1;
            }
        }
        low
    }
}

/// The row of some settings and some others together, from the rows of each.
fn both(some: &[u64], others: &[u64]) -> Vec<u64> {
    let mut row = vec![0; some.len() + others.len() - 1];
    for (i, some) in some.iter().enumerate() {
        for (j, others) in others.iter().enumerate() {
            row[i + j] += some * others;
        }
    }
    row
}
