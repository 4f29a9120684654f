//! The program `diagram_dot`: its graph against the table, and its other lines against those of
//! `setuplist`.

use setupbook_tests::damage;
use setupbook_tests::layout::bytes_of;
use setupbook_tests::listing::{listing, LONGEST};
use setupbook_tests::program;
use setupbook_tests::reading::{Edge, Table};
use setupbook_tests::rng::Rng;
use setupbook_tests::tables;

fn printed(table: &[u8]) -> String {
    program::printed("diagram_dot", &[table])
}

/// The line of each height that has nodes, from the top.
fn rows(table: &Table) -> String {
    let row = |height: u64| -> String {
        let label = format!("label = \"setting {}\"", table.n - height + 1);
        let nodes = (1..=table.node_count).rev();
        let same = nodes.filter(|&k| table.height(k) == height);
        same.map(|k| format!(" v{k} [{label}];")).collect()
    };
    let rows = (1..=table.n).rev().map(row).filter(|row| !row.is_empty());
    rows.map(|row| format!("  {{ rank = same;{row} }}\n"))
        .collect()
}

fn edge(from: &str, to: Edge, style: &str) -> String {
    let mark = if to.flag { ", arrowhead = dot" } else { "" };
    format!("  {from} -> v{} [style = {style}{mark}];\n", to.node)
}

/// The lines of the edges, with unseen ones that keep the rows in their order.
fn edges(table: &Table) -> String {
    let mut text = edge("entry", table.root, "solid");
    for k in (1..=table.node_count).rev() {
        let (record, from) = (table.record(k), format!("v{k}"));
        text += &edge(&from, record.then_edge, "solid");
        text += &edge(&from, record.else_edge, "dashed");
        let next = Edge {
            node: k - 1,
            flag: false,
        };
        let named = [record.then_edge, record.else_edge].map(|edge| edge.node);
        if table.height(k) != table.height(next.node) && !named.contains(&next.node) {
            text += &edge(&from, next, "invis");
        }
    }
    text
}

/// Compares what the program prints of a table. Gives back whether it is a graph.
fn compare(bytes: &[u8]) -> bool {
    let (text, listing) = (printed(bytes), listing(bytes));
    if !listing.starts_with("vars") {
        assert_eq!(text, listing);
        return false;
    }
    let table = Table::read(bytes);
    let sink = "  v0 [style = solid, label = \"permitted\"];\n";
    let (head, body) = text.split_once(sink).expect("the sink");
    assert!(head.starts_with("digraph table {\n"));
    assert_eq!(body, rows(&table) + &edges(&table) + "}\n");
    true
}

#[test]
fn random_tables() {
    let mut rng = Rng::new(Rng::seed_of_run());
    let mut graphs = 0;
    for round in 0..200 {
        let mut words = tables::of_any_size(&mut rng);
        if round % 4 == 3 {
            let refusal = rng.between(1, 9);
            damage::aim(&mut rng, &mut words, refusal);
        }
        graphs += u64::from(compare(&bytes_of(&words)));
    }
    assert!(graphs >= 100, "{graphs} graphs");
}

#[test]
fn extreme_tables() {
    for n in [0, 1, 2, 62, 63] {
        for words in tables::extreme(n) {
            assert!(compare(&bytes_of(&words)));
        }
    }
}

#[test]
fn lengths_of_the_input() {
    for len in [0, 7, 8, 9, LONGEST - 1, LONGEST, LONGEST + 1, 2 * LONGEST] {
        assert_eq!(compare(&vec![0; len]), len == 8);
    }
}
