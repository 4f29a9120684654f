//! Tables with faults: one or more aimed changes to a table, and rows of words or bytes made up
//! at random.

use crate::layout::{bytes_of, fields, word, EDGE_BITS};
use crate::rng::Rng;
use crate::tables;

/// Makes one change that aims at the given refusal (1 to 9). The result may be refused by
/// another one, or by none: the paper decides.
pub fn aim(rng: &mut Rng, words: &mut [u64], refusal: u64) {
    if refusal <= 3 {
        aim_at_header(rng, words, refusal);
    } else if words.len() > 1 {
        aim_at_record(rng, words, refusal);
    }
}

fn aim_at_header(rng: &mut Rng, words: &mut [u64], refusal: u64) {
    let (n, node_count, root) = fields(words[0]);
    let one_less = node_count.saturating_sub(1);
    let (any_count, any_great, any_node) = (
        rng.below(65_536),
        rng.between(65_536, EDGE_BITS),
        rng.below(1 << 28),
    );
    words[0] = match refusal {
        1 => word(n, rng.pick(&[node_count + 1, one_less, 0, any_count]), root),
        2 => {
            let count = rng.pick(&[65_536, 65_537, 131_072 + node_count, EDGE_BITS, any_great]);
            let edge = rng.pick(&[root, (2 * count) & EDGE_BITS]);
            word(n, count, edge)
        }
        _ => {
            let node = rng.pick(&[
                node_count + 1,
                one_less,
                0,
                node_count ^ (1 << 16),
                any_node,
            ]);
            word(n, node_count, 2 * node + root % 2)
        }
    };
}

fn aim_at_record(rng: &mut Rng, words: &mut [u64], refusal: u64) {
    let (n, node_count, root) = fields(words[0]);
    let k = rng.between(1, words.len() as u64 - 1);
    let (mut height, mut then_edge, mut else_edge) = fields(words[k as usize]);
    match refusal {
        4 => match rng.below(3) {
            0 => words[0] = word(n.saturating_sub(1), node_count, root),
            1 => height = 0,
            _ => height = rng.pick(&[(n + 1).min(63), 63]),
        },
        5 => {
            // Two records exchanged, or one of them twice.
            let other = rng.between(1, words.len() as u64 - 1) as usize;
            match rng.below(3) {
                0 => words.swap(k as usize, other),
                1 => words[k as usize] = words[other],
                _ => words[k as usize] = words[(k as usize - 1).max(1)],
            }
            return;
        }
        6 => {
            let any = rng.below(1 << 28);
            let node = rng.pick(&[
                k,
                k + 1,
                k - 1,
                node_count,
                node_count + 1,
                (1 << 28) - 1,
                any,
            ]);
            if rng.chance(50) {
                then_edge = 2 * node + then_edge % 2;
            } else {
                else_edge = 2 * node + else_edge % 2;
            }
        }
        7 => then_edge ^= 1,
        8 => {
            if rng.chance(50) {
                then_edge = else_edge;
            } else {
                else_edge = then_edge;
            }
        }
        _ => {
            // Another node in place of one that was named.
            if rng.chance(50) {
                then_edge = 2 * rng.below(k);
            } else {
                else_edge = 2 * rng.below(k) + rng.below(2);
            }
        }
    }
    words[k as usize] = word(height, then_edge, else_edge);
}

/// Makes the last record break the rules of the set `rules` (some of 4 to 8), as far as they go
/// together.
pub fn break_last_record(rng: &mut Rng, words: &mut [u64], rules: &[u64]) {
    let k = words.len() as u64 - 1;
    if k == 0 {
        return;
    }
    let (n, ..) = fields(words[0]);
    let (mut height, mut then_edge, mut else_edge) = fields(words[k as usize]);
    let breaks = |rule: u64| rules.contains(&rule);
    if breaks(4) {
        height = if breaks(5) || n == 63 {
            0
        } else {
            rng.between(n + 1, 63)
        };
    } else if breaks(5) && k > 1 {
        (height, then_edge, else_edge) = fields(words[k as usize - 1]);
    }
    if breaks(6) {
        else_edge = 2 * rng.pick(&[k, k + 1, (1 << 28) - 1]) + rng.below(2);
        if breaks(8) {
            then_edge = else_edge & !1;
        }
    }
    if breaks(7) {
        then_edge |= 1;
    }
    if breaks(8) {
        else_edge = then_edge;
    }
    if breaks(5) && !breaks(4) {
        // Not above the record before, whatever the edges are.
        height = height.saturating_sub(1).max(1);
    }
    words[k as usize] = word(height, then_edge, else_edge);
}

/// Where an edge of rule 6 leads.
#[derive(Clone, Copy)]
pub enum Astray {
    NotBelow,
    ToGreaterHeight,
    ToEqualHeight,
}

/// Makes a record break rules 5 and 6, with a permitted height and nothing but passing records
/// before it. Gives back its number, if such a record was found.
pub fn fall_astray(rng: &mut Rng, words: &mut [u64], astray: Astray) -> Option<u64> {
    let last = words.len() as u64 - 1;
    if last < 2 {
        return None;
    }
    for _ in 0..100 {
        let k = rng.between(2, last);
        let before = words[k as usize - 1];
        let height = rng.between(1, fields(before).0);
        let node = match astray {
            Astray::NotBelow => rng.pick(&[k, k + 1, last, last + 1, (1 << 28) - 1]),
            _ => rng.between(1, k - 1),
        };
        let leads_there = match astray {
            Astray::NotBelow => node >= k,
            Astray::ToGreaterHeight => fields(words[node as usize]).0 > height,
            Astray::ToEqualHeight => fields(words[node as usize]).0 == height,
        };
        let mut edges = [2 * rng.below(k), 2 * node + rng.below(2)];
        if rng.chance(50) {
            edges.reverse();
        }
        let record = word(height, edges[0], edges[1]);
        if leads_there && record <= before {
            words[k as usize] = record;
            return Some(k);
        }
    }
    None
}

/// Puts one or two records on top of a table, with a fault of rule 3, 5, 7, 8 or 9, or without
/// one. They leave it settled which setups are permitted, and the old root is still reached.
pub fn fault_on_top(words: &mut Vec<u64>, refusal: u64) {
    let (n, node_count, _) = fields(words[0]);
    let (height, ..) = fields(words[node_count as usize]);
    let edge = 2 * node_count;
    match refusal {
        5 => words.extend([word(height + 2, edge, 0), word(height + 1, edge, 1)]),
        7 => words.push(word(height + 1, edge + 1, 0)),
        8 => words.push(word(height + 1, edge, edge)),
        9 => words.extend([word(height + 1, edge, 1), word(height + 2, edge, 0)]),
        _ => words.push(word(height + 1, edge, 0)),
    }
    let last = words.len() as u64 - 1;
    let root = if refusal == 3 { last - 1 } else { last };
    words[0] = word(n, last, 2 * root);
}

/// Turns one to three bits.
pub fn flip_bits(rng: &mut Rng, words: &mut [u64]) {
    for _ in 0..rng.between(1, 3) {
        let k = rng.index(words.len());
        words[k] ^= 1 << rng.below(64);
    }
}

/// A header that fits and records whose fields are random but small, so that every rule is
/// broken often, alone and with others.
pub fn small_fields(rng: &mut Rng) -> Vec<u64> {
    let n = rng.below(5);
    let node_count = rng.below(6);
    let mut words = vec![word(n, node_count, 2 * node_count + rng.below(2))];
    for k in 1..=node_count {
        let height = if rng.chance(85) {
            k.div_ceil(2)
        } else {
            rng.below(n + 2)
        };
        let limit = if rng.chance(85) { 2 * k } else { 2 * k + 4 };
        let then_edge = rng.below(limit) & if rng.chance(85) { !1 } else { !0 };
        words.push(word(height, then_edge, rng.below(limit)));
    }
    if rng.chance(60) {
        words[1..].sort();
    }
    words
}

/// A header that fits and random records, or random words throughout.
pub fn random_words(rng: &mut Rng) -> Vec<u64> {
    let len = rng.between(1, 12);
    let mut words: Vec<u64> = (0..len).map(|_| rng.word()).collect();
    if rng.chance(80) {
        words[0] = word(rng.below(64), len - 1, 2 * (len - 1) + rng.below(2));
    }
    if rng.chance(50) {
        words[1..].sort();
    }
    words
}

/// Some of the rules of a record.
fn any_rules(rng: &mut Rng) -> Vec<u64> {
    (4..=8).filter(|_| rng.chance(50)).collect()
}

/// A table with faults of a random kind, now and then without.
pub fn any_faults(rng: &mut Rng) -> Vec<u8> {
    let n = tables::any_settings(rng);
    let most = rng.pick(&[4, 8, 20]);
    let mut words = tables::random_accepted(rng, n, most);
    match rng.below(9) {
        0..=1 => {
            let refusal = rng.between(1, 9);
            aim(rng, &mut words, refusal);
        }
        2..=3 => {
            for _ in 0..rng.between(2, 4) {
                // Faults of the records more often than those of the header, which hide them.
                let refusal = match rng.chance(80) {
                    true => rng.between(4, 9),
                    false => rng.between(1, 3),
                };
                aim(rng, &mut words, refusal);
            }
        }
        4..=5 => {
            let rules = any_rules(rng);
            break_last_record(rng, &mut words, &rules);
        }
        6 => {
            let astray = rng.pick(&[
                Astray::NotBelow,
                Astray::ToGreaterHeight,
                Astray::ToEqualHeight,
            ]);
            fall_astray(rng, &mut words, astray);
        }
        7 => flip_bits(rng, &mut words),
        _ => words = small_fields(rng),
    }
    damaged_bytes(rng, &words)
}

/// The words as bytes, now and then with a few bytes too many or too few.
pub fn damaged_bytes(rng: &mut Rng, words: &[u64]) -> Vec<u8> {
    let mut bytes = bytes_of(words);
    match rng.below(24) {
        0 => bytes.truncate(bytes.len() - rng.between(1, 8) as usize),
        1 => {
            let more = rng.between(1, 8) as usize;
            bytes.extend(rng.bytes(more));
        }
        2 => bytes.truncate(rng.index(bytes.len() + 1)),
        _ => {}
    }
    bytes
}
