//! What the program `setuplist` prints, after the paper.

use crate::call::Call;
use crate::paper;
use crate::reading::Table;

/// The length of the longest table that is listed.
pub const LONGEST: usize = 4096;

/// What it prints of a table.
pub fn listing(table: &[u8]) -> String {
    if table.len() > LONGEST {
        return "too long\n".to_string();
    }
    if let Some(refusal) = paper::table_refusals(Call::Count, table, usize::MAX).first() {
        return format!("refused {} at {}\n", refusal.number, refusal.place);
    }
    let table = Table::read(table);
    let counts = table.counts();
    let total = table.total(&counts);
    let (n, node_count) = (table.n, table.node_count);
    let mut text = format!("vars {n} nodes {node_count} count {total}\n");
    for rank in (0..256).take_while(|&rank| u128::from(rank) < total) {
        let setup = digits(table.setup_number(rank, &counts), n as usize);
        text += &format!("{rank} {setup}\n");
    }
    if total > 256 {
        text += "more\n";
    }
    text
}

/// A setup as n binary digits.
pub fn digits(setup: u64, n: usize) -> String {
    match n {
        0 => "-".to_string(),
        _ => format!("{setup:0n$b}"),
    }
}
