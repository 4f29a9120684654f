//! A short run over raw bytes, each memory beside a guard page; the script `fuzz` makes the long one.

use setupbook_tests::comparison::report;
use setupbook_tests::tally::{operations, OPERATION_COUNT};
use setupbook_tests::{fuzz, rng::Rng};

#[test]
fn raw_bytes_are_answered_as_the_paper_says() {
    let run = fuzz::run(Rng::seed_of_run(), 0, 25_000 * OPERATION_COUNT);
    report(&run.to_string());
    assert_eq!(run.differences, 0);
    assert!(run.tally.empty_between >= 50);
    assert!(run.tally.improper >= 1_000);
    run.tally.assert_calls(&operations(), 20_000);
}
