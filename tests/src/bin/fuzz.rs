//! `fuzz [CALLS [FIRST]]` makes so many calls on raw bytes, from number FIRST on (0), by the seed of
//! the run. It exits with 1 if one differs from the paper, and with 3 at a forbidden read or write.

use std::process::ExitCode;

use setupbook_tests::{fuzz, rng::Rng};

fn main() -> ExitCode {
    let mut numbers = std::env::args()
        .skip(1)
        .map(|text| text.replace(',', "").parse().expect("a decimal number"));
    let calls = numbers.next().unwrap_or(10_000_000);
    let first = numbers.next().unwrap_or(0);
    let report = fuzz::run(Rng::seed_of_run(), first, calls);
    println!("{report}");
    ExitCode::from(u8::from(report.differences > 0))
}
