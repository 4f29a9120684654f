//! Accepted tables, as rows of words: from a truth table, from states, from a list of setups, at random
//! level by level, and without records.

use std::collections::{BTreeMap, BTreeSet, HashMap, HashSet};
use std::ops::Range;

use crate::diagram::{Diagram, ALWAYS, NEVER};
use crate::layout::{fields, word};
use crate::rng::Rng;

/// The two tables without records.
pub fn constant(n: u64, permitted: bool) -> Vec<u64> {
    vec![word(n, 0, u64::from(!permitted))]
}

/// A function of some settings: entry x is whether setup x is permitted. Its length is 2^n.
pub type TruthTable = Vec<bool>;

/// Truth table number `number` of the 2^(2^n), for n up to 5.
pub fn numbered_truth_table(n: u64, number: u64) -> TruthTable {
    (0..1u64 << n)
        .map(|setup| (number >> setup) & 1 == 1)
        .collect()
}

/// All functions of up to 3 settings.
pub fn small_truth_tables() -> impl Iterator<Item = TruthTable> {
    let of_n = |n| (0..1u64 << (1 << n)).map(move |number| numbered_truth_table(n, number));
    (0..=3).flat_map(of_n)
}

/// A random truth table with constant, repeated and opposite parts.
pub fn random_truth_table(rng: &mut Rng, n: u64) -> TruthTable {
    if n == 0 {
        return vec![rng.chance(50)];
    }
    let low = random_truth_table(rng, n - 1);
    let high = match rng.below(20) {
        0 => vec![rng.chance(50); low.len()],
        1..=2 => low.clone(),
        3..=4 => opposite(&low),
        _ => random_truth_table(rng, n - 1),
    };
    if rng.chance(50) {
        [low, high].concat()
    } else {
        [high, low].concat()
    }
}

/// Only the permitted setups with these ranks.
pub fn with_ranks(function: &TruthTable, ranks: Range<u64>) -> TruthTable {
    let permitted = (0..function.len()).filter(|&setup| function[setup]);
    let mut kept = vec![false; function.len()];
    for (_, setup) in (0..)
        .zip(permitted)
        .filter(|(rank, _)| ranks.contains(rank))
    {
        kept[setup] = true;
    }
    kept
}

fn opposite(function: &TruthTable) -> TruthTable {
    function.iter().map(|permitted| !permitted).collect()
}

fn halves(function: &TruthTable) -> (TruthTable, TruthTable) {
    let (low, high) = function.split_at(function.len() / 2);
    (low.to_vec(), high.to_vec())
}

/// The function that a node stands for, and the flag of the edge to it: permitted for all
/// settings 1, and dependent on its first setting.
fn node_of(function: &TruthTable) -> (TruthTable, u64) {
    let flag = u64::from(!function[function.len() - 1]);
    let mut plain = if flag == 1 {
        opposite(function)
    } else {
        function.clone()
    };
    while plain.len() > 1 && plain[..plain.len() / 2] == plain[plain.len() / 2..] {
        plain.truncate(plain.len() / 2);
    }
    (plain, flag)
}

/// The table that permits exactly the setups of a truth table.
pub fn from_truth_table(function: &TruthTable) -> Vec<u64> {
    let n = u64::from(function.len().ilog2());
    let (root, root_flag) = node_of(function);

    let mut levels: BTreeMap<u64, BTreeSet<TruthTable>> = BTreeMap::new();
    let mut open = vec![root.clone()];
    while let Some(node) = open.pop() {
        let height = u64::from(node.len().ilog2());
        if height > 0 && levels.entry(height).or_default().insert(node.clone()) {
            let (low, high) = halves(&node);
            open.push(node_of(&low).0);
            open.push(node_of(&high).0);
        }
    }

    let mut numbers: HashMap<TruthTable, u64> = HashMap::from([(vec![true], 0)]);
    let mut words = vec![0];
    for (height, nodes) in levels {
        let mut level = Vec::new();
        for node in nodes {
            let (low, high) = halves(&node);
            let edge_to = |function: &TruthTable| {
                let (node, flag) = node_of(function);
                2 * numbers[&node] + flag
            };
            level.push((word(height, edge_to(&high), edge_to(&low)), node));
        }
        level.sort();
        for (record, node) in level {
            numbers.insert(node, words.len() as u64);
            words.push(record);
        }
    }
    words[0] = word(n, words.len() as u64 - 1, 2 * numbers[&root] + root_flag);
    words
}

/// The table of the setups of n settings that are permitted so: from state 0 on, the settings lead
/// from state to state, the first one first, or to none, and the last state is a permitted one.
pub fn from_states(
    n: u64,
    states: usize,
    next: impl Fn(usize, bool) -> Option<usize>,
    is_permitted: impl Fn(usize) -> bool,
) -> Vec<u64> {
    let mut diagram = Diagram::default();
    let last = |state| if is_permitted(state) { ALWAYS } else { NEVER };
    let mut nodes: Vec<u64> = (0..states).map(last).collect();
    for height in 1..=n {
        let below = |state, on| next(state, on).map_or(NEVER, |state| nodes[state]);
        nodes = (0..states)
            .map(|state| diagram.number(height, below(state, true), below(state, false)))
            .collect();
    }
    diagram.write(n, nodes[0])
}

/// The table of the setups of n settings with exactly j on: the state is how many have been.
pub fn with_exactly(n: u64, j: u64) -> Vec<u64> {
    let j = j as usize;
    let next = |state: usize, on| Some(state + usize::from(on)).filter(|&state| state <= j);
    from_states(n, j + 1, next, |state| state == j)
}

/// Some j with the table of the setups of n settings with exactly j on: for n up to 8 and for 63 every
/// j, otherwise two.
pub fn some_with_exactly(rng: &mut Rng, n: u64) -> Vec<(u64, Vec<u64>)> {
    let chosen: Vec<u64> = match n {
        0..=8 | 63 => (0..=n).collect(),
        _ => vec![rng.below(n + 1), rng.below(n + 1)],
    };
    let tables = chosen.into_iter().map(|j| (j, with_exactly(n, j)));
    tables.collect()
}

/// The table of the multiples of m among the setups of n settings: the state is the remainder.
pub fn multiples(n: u64, m: u64) -> Vec<u64> {
    let m = m as usize;
    let next = |state, on| Some((2 * state + usize::from(on)) % m);
    from_states(n, m, next, |state| state == 0)
}

/// The table of these setups of n settings alone.
pub fn of_setups(n: u64, setups: impl IntoIterator<Item = u64>) -> Vec<u64> {
    let setups = BTreeSet::from_iter(setups);
    let mut diagram = Diagram::default();
    let root = node_of_setups(&mut diagram, n, &Vec::from_iter(setups));
    diagram.write(n, root)
}

/// The node of setups that ascend and are the same above the given height.
fn node_of_setups(diagram: &mut Diagram, height: u64, setups: &[u64]) -> u64 {
    if setups.is_empty() {
        return NEVER;
    }
    if height == 0 {
        return ALWAYS;
    }
    let is_off = |setup: &u64| (setup >> (height - 1)) & 1 == 0;
    let (off, on) = setups.split_at(setups.partition_point(is_off));
    let [high, low] = [on, off].map(|setups| node_of_setups(diagram, height - 1, setups));
    diagram.number(height, high, low)
}

/// How many records of which height, from the lowest height up.
pub type Plan = Vec<(u64, usize)>;

/// A plan for n settings and at most `most` records, with random gaps between the heights. Every
/// level but the lowest is at most half of what is possible there.
pub fn random_plan(rng: &mut Rng, n: u64, most: usize) -> Plan {
    let dense = rng.pick(&[10, 60, 100, 100]);
    let mut heights: Vec<u64> = (1..=n).filter(|_| rng.chance(dense)).collect();
    if heights.is_empty() {
        heights.push(rng.between(1, n));
    }
    let growth = rng.pick(&[1, 2, 4, 16]);
    let mut sizes = Vec::new();
    let mut total = 0;
    for _ in &heights {
        // From the root down: the root edge and the records above leave room for one unnamed
        // node more than there are records above.
        let limit = (1 + total).min(most - total).min(growth * (1 + total / 4));
        if limit == 0 {
            break;
        }
        let size = rng.between(1 + limit as u64 / 3, limit as u64) as usize;
        sizes.push(size);
        total += size;
    }
    let kept = heights.len() - sizes.len();
    let mut plan: Plan = heights
        .split_off(kept)
        .into_iter()
        .zip(sizes.into_iter().rev())
        .collect();
    fit_from_below(&mut plan);
    plan
}

/// Lowers the levels that are larger than half of what the nodes below allow. A level that is
/// lowered stays at least as large as any level below it.
fn fit_from_below(plan: &mut Plan) {
    let mut below = 1;
    for (_, size) in plan.iter_mut() {
        *size = (*size).min(possible_records(below).div_ceil(2));
        below += *size;
    }
}

/// How many different records of one height there are over `below` nodes, the sink included.
fn possible_records(below: usize) -> usize {
    below.saturating_mul(2 * below - 1)
}

/// A plan with exactly `total` records in `n` consecutive heights of at most `widest` records
/// each.
fn wide_plan(n: u64, total: usize, widest: usize) -> Plan {
    let mut sizes = vec![1; n as usize];
    // From the root down. The four lowest levels come first, so that the others find enough
    // nodes below them.
    let lowest = sizes.len() - 4;
    sizes[lowest..].copy_from_slice(&[500, 20, 3, 1]);
    let mut left = total - sizes.iter().sum::<usize>();
    for i in 1..lowest {
        let limit = widest.min(1 + sizes[..i].iter().sum::<usize>());
        let more = (limit - 1).min(left);
        sizes[i] += more;
        left -= more;
    }
    assert!(left == 0, "no room for {total} records");
    (1..=n).zip(sizes.into_iter().rev()).collect()
}

/// The records of a plan, as a table for n settings. With `name_all` every record but the last is
/// named by a later one, so that the table is accepted; without, names are left to chance.
pub fn from_plan(rng: &mut Rng, n: u64, plan: &Plan, name_all: bool) -> Vec<u64> {
    let mut words = vec![0];
    let mut unnamed: Vec<u64> = Vec::new();
    let mut above: usize = plan.iter().map(|level| level.1).sum();
    for &(height, size) in plan {
        let below = words.len() as u64;
        above -= size;
        // The records above this level and the root edge can name `above + 1` more nodes.
        let must = (unnamed.len() + size).saturating_sub(above + 1);
        let can = unnamed.len().min(2 * size);
        let forced = if !name_all {
            0
        } else {
            rng.between(must as u64, can as u64) as usize
        };
        rng.shuffle(&mut unnamed);
        let mut ends: Vec<Option<u64>> =
            unnamed.drain(unnamed.len() - forced..).map(Some).collect();
        ends.resize(2 * size, None);
        rng.shuffle(&mut ends);

        // Records with two given ends first: the others can give way to them.
        let mut pairs: Vec<&[Option<u64>]> = ends.chunks(2).collect();
        pairs.sort_by_key(|pair| pair.iter().filter(|end| end.is_none()).count());
        let mut level = HashSet::new();
        for pair in pairs {
            let record = loop {
                let record = random_record(rng, height, below, [pair[0], pair[1]]);
                if !level.contains(&record) {
                    break record;
                }
            };
            level.insert(record);
        }
        let mut level: Vec<u64> = level.into_iter().collect();
        level.sort();
        let named: HashSet<u64> = level.iter().flat_map(|&record| names(record)).collect();
        unnamed.retain(|node| !named.contains(node));
        for record in level {
            unnamed.push(words.len() as u64);
            words.push(record);
        }
    }
    let last = words.len() as u64 - 1;
    words[0] = word(n, last, 2 * last + rng.below(2));
    words
}

fn names(record: u64) -> [u64; 2] {
    let (_, then_edge, else_edge) = fields(record);
    [then_edge / 2, else_edge / 2]
}

/// A record of the given height over the nodes from 0 to `below` - 1; given ends are used, on
/// either side.
fn random_record(rng: &mut Rng, height: u64, below: u64, ends: [Option<u64>; 2]) -> u64 {
    let mut nodes = ends.map(|end| {
        end.unwrap_or_else(|| match rng.below(8) {
            0 => 0,
            1..=2 => below - 1 - rng.below(below.min(8)),
            _ => rng.below(below),
        })
    });
    rng.shuffle(&mut nodes);
    let flag = if nodes[0] == nodes[1] {
        1
    } else {
        rng.below(2)
    };
    word(height, 2 * nodes[0], 2 * nodes[1] + flag)
}

/// A random accepted table for n settings with at most `most` records.
pub fn random_accepted(rng: &mut Rng, n: u64, most: usize) -> Vec<u64> {
    if n == 0 || most == 0 {
        return constant(n, rng.chance(50));
    }
    let plan = random_plan(rng, n, most);
    from_plan(rng, n, &plan, true)
}

/// A random accepted table; many are small, some have hundreds of records.
pub fn of_any_size(rng: &mut Rng) -> Vec<u64> {
    let n = if rng.chance(50) {
        rng.between(1, 12)
    } else {
        rng.between(1, 63)
    };
    let most = rng.pick(&[4, 8, 20, 80, 400]);
    random_accepted(rng, n, most)
}

/// A number of settings; as often as not a small one.
pub fn any_settings(rng: &mut Rng) -> u64 {
    match rng.below(2) {
        0 => rng.between(1, 8),
        _ => rng.between(1, 63),
    }
}

/// A random accepted table for n settings with few records, so that two of them have few pairs.
pub fn of_few_records(rng: &mut Rng, n: u64) -> Vec<u64> {
    let most = rng.pick(&[0, 3, 6, 12, 30]);
    random_accepted(rng, n, most)
}

/// Two of them with the same n.
pub fn two_of_few_records(rng: &mut Rng) -> [Vec<u64>; 2] {
    let n = any_settings(rng);
    [(); 2].map(|()| of_few_records(rng, n))
}

/// One record a height up to n: only the last setup, or all setups but the first, or the
/// opposite. Its counts are the greatest and the smallest ones of each height.
pub fn chain(n: u64, only_one: bool, root_flag: u64) -> Vec<u64> {
    let mut words = vec![word(n, n, 2 * n + root_flag)];
    for k in 1..=n {
        let before = 2 * (k - 1);
        words.push(match (k, only_one) {
            (1, _) => word(1, 0, 1),
            (_, true) => word(k, before, 1),
            (_, false) => word(k, 0, before),
        });
    }
    words
}

/// The tables without records, and chains: C is 0, 1, 2^n - 1 or 2^n.
pub fn extreme(n: u64) -> Vec<Vec<u64>> {
    let mut extreme = vec![constant(n, false), constant(n, true)];
    if n > 0 {
        for (only_one, root_flag) in [(false, 0), (false, 1), (true, 0), (true, 1)] {
            extreme.push(chain(n, only_one, root_flag));
        }
    }
    extreme
}

/// One record a height from 3 to n - 3: permitted if the number of zeros among these settings is
/// even. Its parts have up to 2n - 2 records more than it has, as many as any table's.
pub fn parity(n: u64) -> Vec<u64> {
    let mut words = vec![word(n, n - 5, 2 * (n - 5))];
    for k in 1..=n - 5 {
        let below = 2 * (k - 1);
        words.push(word(k + 2, below, below + 1));
    }
    words
}

/// An accepted table with exactly `node_count` records, at most `widest` of a height. (With more
/// than 65,535 it is accepted but for that number.)
pub fn wide(rng: &mut Rng, n: u64, node_count: usize, widest: usize) -> Vec<u64> {
    let words = from_plan(rng, n, &wide_plan(n, node_count, widest), true);
    assert_eq!(words.len(), node_count + 1);
    words
}

/// The table of all other setups: the root edge's flag turned over.
pub fn turned_over(words: &[u64]) -> Vec<u64> {
    let mut turned = words.to_vec();
    turned[0] ^= 1;
    turned
}

/// The same diagram with settings that change nothing above all others.
pub fn with_settings_above(mut words: Vec<u64>, more: u64) -> Vec<u64> {
    words[0] += word(more, 0, 0);
    words
}

/// A table with exactly so many records and n = 63; the first 23 settings change nothing.
pub fn wide_below(rng: &mut Rng, node_count: usize) -> Vec<u64> {
    with_settings_above(wide(rng, 40, node_count, 5_000), 23)
}

/// The same diagram with settings that change nothing below all others.
pub fn with_settings_below(words: &[u64], more: u64) -> Vec<u64> {
    words.iter().map(|field| field + word(more, 0, 0)).collect()
}

/// Some with tens of thousands of records.
pub fn wide_ones(rng: &mut Rng) -> Vec<Vec<u64>> {
    [
        (20, 65_535, 40_000),
        (30, 65_535, 5_000),
        (63, 65_535, 2_000),
        (63, 30_000, 1_000),
    ]
    .map(|(n, node_count, widest)| wide(rng, n, node_count, widest))
    .to_vec()
}
