//! The paper, straight, for two tables made into one: which refusals hold, what a call answers and
//! what it leaves in the sheets, the pair sheet and the out memory. Pairs are counted as the paper
//! defines them, on edges with flags; the result is made by another way, on diagrams without flags.

use std::collections::HashMap;
use std::mem;

use crate::call::{Answer, Call, Refusal};
use crate::combination::{Combination, Contents, Memories, Operation, Outcome};
use crate::diagram::{Diagram, ALWAYS, NEVER};
use crate::paper::{put_words, settled, table_refusals, written_refusal};
use crate::reading::{Edge, Table};
use crate::sheets;

/// What a call does.
pub struct Expected {
    /// Every refusal whose condition holds, in the paper's order: the first one is returned. A
    /// condition that speaks of what is not there (a header, a record, a result) does not hold.
    pub refusals: Vec<Refusal>,
    pub outcome: Outcome,
}

/// A combination and what it comes to, whatever memory is lent.
pub struct Reading<'a> {
    pub combination: Combination<'a>,
    /// How many pairs there are, if it is settled what both tables permit.
    pub pairs: Option<usize>,
    /// The words of the result, however many, if the tables have the same n too.
    pub words: Option<Vec<u64>>,
}

impl<'a> Reading<'a> {
    pub fn new(combination: Combination<'a>) -> Reading<'a> {
        let Combination {
            operation,
            first,
            second,
        } = combination;
        let [reading] = Reading::of([operation], first, second);
        reading
    }

    /// All three operations, with the pairs counted once.
    pub fn all(first: &'a [u8], second: Option<&'a [u8]>) -> [Reading<'a>; 3] {
        Reading::of(Operation::ALL, first, second)
    }

    fn of<const N: usize>(
        operations: [Operation; N],
        first: &'a [u8],
        second: Option<&'a [u8]>,
    ) -> [Reading<'a>; N] {
        let combinations = operations.map(|operation| Combination {
            operation,
            first,
            second,
        });
        let read = |table| settled(table, &table_refusals(Call::Check, table, usize::MAX));
        let [Some(first), Some(second)] = combinations[0].tables().map(read) else {
            return combinations.map(|combination| Reading {
                combination,
                pairs: None,
                words: None,
            });
        };
        let pairs = pair_count(&first, &second);
        let mut results = (first.n == second.n).then(|| Results::new(&first, &second));
        combinations.map(|combination| Reading {
            combination,
            pairs: Some(pairs),
            words: results
                .as_mut()
                .map(|results| results.table(combination.operation)),
        })
    }

    /// The lengths that are needed: where there is no number of pairs that of one pair, which there
    /// always is, and where there is no result that of the shortest table.
    pub fn needed(&self) -> Memories<usize> {
        let tables = self.combination.tables();
        Memories {
            sheets: tables.map(|table| sheets::needed(Call::Check, table)),
            pairs: 32 * self.pairs.unwrap_or(1),
            out: self.words.as_ref().map_or(8, |words| 8 * words.len()),
        }
    }

    pub fn expect(&self, before: &Contents) -> Expected {
        let refusals = self.refusals(&before.lengths());
        let mut memories = before.clone();
        let answer = match refusals.first() {
            Some(&refusal) => Answer::refused(refusal),
            None => {
                let words = self.words.as_ref().unwrap();
                Answer::result(put_words(&mut memories.out, words))
            }
        };
        self.leave_sheets(refusals.first().copied(), &mut memories);
        let outcome = Outcome { answer, memories };
        Expected { refusals, outcome }
    }

    /// Every refusal that holds: those of the first table, those of the second, then 19, 20, 16 and
    /// 11, which name no table.
    fn refusals(&self, lengths: &Memories<usize>) -> Vec<Refusal> {
        let mut holding = Vec::new();
        for (i, table) in self.combination.tables().into_iter().enumerate() {
            let own = table_refusals(Call::Check, table, lengths.sheets[i]);
            let table = i as u64 + 1;
            holding.extend(own.into_iter().map(|own| Refusal { table, ..own }));
        }
        let unequal = self.has_unequal_n().then_some(19);
        let room = lengths.pairs / 32;
        let crowded = self.pairs.is_some_and(|pairs| pairs > room).then_some(20);
        let words = self.words.as_deref();
        let unwritten = words.and_then(|words| written_refusal(words, lengths.out));
        let last = [unequal, crowded, unwritten].into_iter().flatten();
        holding.extend(last.map(|number| Refusal::new(number, 0)));
        holding
    }

    /// Both tables have a header, and its n is not the same.
    fn has_unequal_n(&self) -> bool {
        let [first, second] = self.combination.tables();
        first.len() >= 8 && second.len() >= 8 && first[0] / 4 != second[0] / 4
    }

    /// Changes the sheets as the call does, if `first` is the refusal returned. A table's sheet is
    /// blank if its table is reached and passes, or is refused by 9. The pair sheet is blank, all of
    /// its places, if no table is refused and n is equal.
    fn leave_sheets(&self, first: Option<Refusal>, memories: &mut Contents) {
        let (table, number) = first.map_or((0, 0), |refusal| (refusal.table, refusal.number));
        let needed = self.needed().sheets;
        for (i, sheet) in memories.sheets.iter_mut().enumerate() {
            let own = i as u64 + 1;
            let is_passed = table == 0 || table > own;
            if is_passed || (table == own && number == 9) {
                sheet[..needed[i]].fill(0);
            }
        }
        if table == 0 && number != 19 {
            let places = memories.pairs.len() / 8;
            memories.pairs[..8 * places].fill(0);
        }
    }
}

/// The number of distinct pairs of edges: from the two root edges on, both then-edges and both
/// else-edges are followed at the greater height, if that is above 0. A lower edge stays. So pairs
/// lead to pairs of smaller greater height only, and those of one height are found together.
pub fn pair_count(first: &Table, second: &Table) -> usize {
    let height_of = |(one, other): (Edge, Edge)| {
        let height = first.height(one.node).max(second.height(other.node));
        height as usize
    };
    let mut levels = vec![Vec::new(); 64];
    let roots = (first.root, second.root);
    levels[height_of(roots)].push(roots);
    let mut count = 0;
    for height in (0..64).rev() {
        let mut level = mem::take(&mut levels[height]);
        level.sort();
        level.dedup();
        count += level.len();
        // All settings 1, for the then-edges, and all 0, for the else-edges.
        for settings in [u64::MAX, 0].into_iter().filter(|_| height > 0) {
            for &(one, other) in &level {
                let below = height as u64 - 1;
                let pair = (
                    first.follow(one, settings, below),
                    second.follow(other, settings, below),
                );
                levels[height_of(pair)].push(pair);
            }
        }
    }
    count
}

/// Two tables with the same n, as nodes without flags.
pub struct Results {
    n: u64,
    diagram: Diagram,
    roots: [u64; 2],
}

impl Results {
    pub fn new(first: &Table, second: &Table) -> Results {
        let mut diagram = Diagram::default();
        let roots = [first, second].map(|table| node_of(&mut diagram, table));
        let n = first.n;
        Results { n, diagram, roots }
    }

    /// The words of the table that permits what the operation says, with as few records as there can
    /// be, even above 65,535.
    pub fn table(&mut self, operation: Operation) -> Vec<u64> {
        let [first, second] = self.roots;
        let root = self.node(operation, first, second, &mut HashMap::new());
        self.diagram.write(self.n, root)
    }

    /// The node of what the operation permits of two nodes. Results that have been found are known.
    fn node(&mut self, operation: Operation, first: u64, second: u64, known: &mut Known) -> u64 {
        let diagram = &self.diagram;
        let height = diagram.height(first).max(diagram.height(second));
        if height == 0 {
            let permits = operation.permits(first == ALWAYS, second == ALWAYS);
            return if permits { ALWAYS } else { NEVER };
        }
        let found = with_sink(operation, first, second);
        if let Some(number) = found.or_else(|| known.get(&(first, second)).copied()) {
            return number;
        }
        let [high, low] = [true, false].map(|on| {
            let first = self.diagram.follow(first, height, on);
            let second = self.diagram.follow(second, height, on);
            self.node(operation, first, second, known)
        });
        let number = self.diagram.number(height, high, low);
        known.insert((first, second), number);
        number
    }
}

/// Results of one operation, by the two nodes.
type Known = HashMap<(u64, u64), u64>;

/// The result of a node and a sink where it is a sink or the node itself. By what comes of the two
/// sinks in the node's place: neither, both or the one that is permitted. (The opposite of a node is
/// found from below.)
fn with_sink(operation: Operation, first: u64, second: u64) -> Option<u64> {
    let permits = |first, second| operation.permits(first == ALWAYS, second == ALWAYS);
    let (node, by_sink) = if first <= ALWAYS {
        (second, [NEVER, ALWAYS].map(|sink| permits(first, sink)))
    } else if second <= ALWAYS {
        (first, [NEVER, ALWAYS].map(|sink| permits(sink, second)))
    } else {
        return None;
    };
    match by_sink {
        [false, false] => Some(NEVER),
        [true, true] => Some(ALWAYS),
        [false, true] => Some(node),
        [true, false] => None,
    }
}

/// The node of a diagram for all that a table permits. Each edge of the table has its node, with a
/// flag or without; edges lead to smaller node numbers.
fn node_of(diagram: &mut Diagram, table: &Table) -> u64 {
    let value = |edge: Edge| 2 * edge.node as usize + usize::from(edge.flag);
    let mut nodes = vec![ALWAYS, NEVER];
    for k in 1..=table.node_count {
        let record = table.record(k);
        for flag in [0, 1] {
            let high = nodes[value(record.then_edge) ^ flag];
            let low = nodes[value(record.else_edge) ^ flag];
            nodes.push(diagram.number(record.height, high, low));
        }
    }
    nodes[value(table.root)]
}
