//! Loose tables: proper ones written in other ways, trees of truth tables, and records made up at
//! random.

use crate::layout::{fields, word};
use crate::rng::Rng;
use crate::tables::TruthTable;

/// The most records that a table may have.
pub const MOST: usize = 65_535;

/// A table in the making. Record k is number k - 1; edges are values. Every step keeps what is
/// permitted.
#[derive(Clone)]
pub struct Loose {
    n: u64,
    root: u64,
    records: Vec<Record>,
}

#[derive(Clone, Copy)]
struct Record {
    height: u64,
    /// Then-edge and else-edge.
    edges: [u64; 2],
}

impl Loose {
    pub fn of(words: &[u64]) -> Loose {
        let (n, _, root) = fields(words[0]);
        let record = |&word: &u64| {
            let (height, then_edge, else_edge) = fields(word);
            Record {
                height,
                edges: [then_edge, else_edge],
            }
        };
        Loose {
            n,
            root,
            records: words[1..].iter().map(record).collect(),
        }
    }

    /// The tree of a truth table, with a node for every beginning of a setup: 2^n - 1 records, all
    /// used. Node k has the nodes 2k and 2k + 1 below it.
    pub fn tree(function: &TruthTable) -> Loose {
        let limit = function.len() as u64;
        let n = u64::from(limit.ilog2());
        let edge = |node: u64| match node.checked_sub(limit) {
            None => 2 * node,
            Some(setup) => u64::from(!function[setup as usize]),
        };
        let record = |k: u64| Record {
            height: n - u64::from(k.ilog2()),
            edges: [edge(2 * k + 1), edge(2 * k)],
        };
        Loose {
            n,
            root: edge(1),
            records: (1..limit).map(record).collect(),
        }
    }

    /// So many records made up at random, and any root edge.
    pub fn random(rng: &mut Rng, n: u64, node_count: usize) -> Loose {
        let mut loose = Loose {
            n,
            root: 0,
            records: Vec::new(),
        };
        loose.add_unused(rng, node_count);
        loose.root = rng.below(2 * loose.records.len() as u64 + 2);
        loose
    }

    pub fn words(&self) -> Vec<u64> {
        let header = word(self.n, self.records.len() as u64, self.root);
        let record = |record: &Record| {
            let [then_edge, else_edge] = record.edges;
            word(record.height, then_edge, else_edge)
        };
        let records = self.records.iter().map(record);
        [header].into_iter().chain(records).collect()
    }

    pub fn node_count(&self) -> usize {
        self.records.len()
    }

    /// The height of the node that an edge leads to.
    fn height(&self, edge: u64) -> u64 {
        match edge / 2 {
            0 => 0,
            node => self.records[node as usize - 1].height,
        }
    }

    /// The root edge, and the edges of all records.
    fn edges_mut(&mut self) -> impl Iterator<Item = &mut u64> {
        let edges = self.records.iter_mut().flat_map(|record| &mut record.edges);
        [&mut self.root].into_iter().chain(edges)
    }

    /// The records in any other order.
    pub fn shuffle(&mut self, rng: &mut Rng) {
        let mut order: Vec<usize> = (0..self.records.len()).collect();
        rng.shuffle(&mut order);
        let mut nodes = vec![0; order.len() + 1];
        for (node, &old) in (1..).zip(&order) {
            nodes[old + 1] = node;
        }
        self.records = order.iter().map(|&old| self.records[old]).collect();
        for edge in self.edges_mut() {
            *edge = 2 * nodes[*edge as usize / 2] + *edge % 2;
        }
    }

    /// Some nodes, `percent` in a hundred, permit the opposite: both of their flags are turned over,
    /// and that of every edge to them.
    pub fn turn(&mut self, rng: &mut Rng, percent: u64) {
        let mut flags = vec![0; self.records.len() + 1];
        flags[1..].fill_with(|| u64::from(rng.chance(percent)));
        for (record, flag) in self.records.iter_mut().zip(&flags[1..]) {
            record.edges = record.edges.map(|edge| edge ^ flag);
        }
        for edge in self.edges_mut() {
            *edge ^= flags[*edge as usize / 2];
        }
    }

    /// Copies of up to so many nodes that are named more than once. One edge to such a node stays,
    /// one leads to the copy, and the others to either. If every record was used, every one is.
    pub fn repeat(&mut self, rng: &mut Rng, more: usize) {
        let mut names = vec![0; self.records.len() + 1];
        for edge in self.edges_mut() {
            names[*edge as usize / 2] += 1;
        }
        let mut nodes: Vec<usize> = (1..names.len()).filter(|&node| names[node] > 1).collect();
        rng.shuffle(&mut nodes);
        nodes.truncate(more);
        let mut copies = vec![None; names.len()];
        for node in nodes {
            self.records.push(self.records[node - 1]);
            copies[node] = Some(self.records.len() as u64);
        }
        let mut met = vec![0; names.len()];
        for edge in self.edges_mut() {
            let node = *edge as usize / 2;
            let Some(copy) = copies[node] else {
                continue;
            };
            met[node] += 1;
            if met[node] == 2 || (met[node] > 2 && rng.chance(50)) {
                *edge = 2 * copy + *edge % 2;
            }
        }
    }

    /// Up to so many records with two equal edges, in the gaps that edges leave between heights.
    pub fn fill_gaps(&mut self, rng: &mut Rng, percent: u64, more: usize) {
        let (most, old) = (self.records.len() + more, self.records.len());
        self.root = self.over_gap(rng, self.n + 1, self.root, percent, most);
        for i in 0..old {
            let Record { height, edges } = self.records[i];
            self.records[i].edges =
                edges.map(|edge| self.over_gap(rng, height, edge, percent, most));
        }
    }

    /// An edge from this height; or, if it leaves a gap, one to a new record there, whose edges both
    /// lead on by it. Both are flagged once more, and so is the edge to them, or none is.
    fn over_gap(
        &mut self,
        rng: &mut Rng,
        height: u64,
        edge: u64,
        percent: u64,
        most: usize,
    ) -> u64 {
        let below = self.height(edge);
        if height < below + 2 || self.records.len() == most || !rng.chance(percent) {
            return edge;
        }
        let flag = rng.below(2);
        self.records.push(Record {
            height: rng.between(below + 1, height - 1),
            edges: [edge ^ flag; 2],
        });
        2 * self.records.len() as u64 + flag
    }

    /// So many records that only each other name, many of them in chains. (Without settings there
    /// are no records.)
    pub fn add_unused(&mut self, rng: &mut Rng, more: usize) {
        for _ in 0..more {
            if self.n == 0 {
                return;
            }
            let latest = 2 * self.records.len() as u64;
            let height = match rng.chance(50) {
                true => self.n.min(self.height(latest) + 1),
                false => rng.between(1, self.n),
            };
            let edges = [(); 2].map(|()| self.edge_below(rng, height));
            self.records.push(Record { height, edges });
        }
    }

    /// Any edge to a node of smaller height, often to the latest one.
    fn edge_below(&self, rng: &mut Rng, height: u64) -> u64 {
        let latest = self.records.len() as u64;
        let node = match rng.below(8) {
            0 => 0,
            1..=2 => latest,
            3..=4 => latest - rng.below(latest.min(8) + 1),
            _ => rng.below(latest + 1),
        };
        match 2 * node + rng.below(2) {
            edge if self.height(edge) < height => edge,
            edge => edge % 2,
        }
    }
}

/// A proper table written otherwise, with up to so many records more: nodes repeated, turned,
/// unused, with equal edges, and mostly in another order.
pub fn loosened(rng: &mut Rng, words: &[u64], more: usize) -> Vec<u64> {
    let mut loose = Loose::of(words);
    let most = MOST.min(loose.node_count() + more);
    for _ in 0..rng.between(1, 6) {
        let room = rng.index(most - loose.node_count() + 1);
        let percent = rng.pick(&[10, 50, 100]);
        match rng.below(5) {
            0..=1 => loose.repeat(rng, room),
            2 => loose.fill_gaps(rng, percent, room),
            3 => loose.add_unused(rng, room),
            _ => loose.turn(rng, percent),
        }
    }
    if rng.chance(90) {
        loose.shuffle(rng);
    }
    loose.words()
}
