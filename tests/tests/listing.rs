//! The program `setuplist`: its whole standard output against stored listings and against the
//! paper.

use std::fs;

use setupbook_tests::damage;
use setupbook_tests::files;
use setupbook_tests::layout::bytes_of;
use setupbook_tests::listing::{listing, LONGEST};
use setupbook_tests::program;
use setupbook_tests::rng::Rng;
use setupbook_tests::tables;

/// What `setuplist` prints.
fn printed(pieces: &[&[u8]]) -> String {
    program::printed("setuplist", pieces)
}

/// The bytes of a table written as hexadecimal words, one a line; # starts a comment line.
fn read_hex(text: &str) -> Vec<u8> {
    let words: Vec<u64> = text
        .lines()
        .filter(|line| !line.starts_with('#'))
        .map(|line| u64::from_str_radix(line, 16).unwrap())
        .collect();
    bytes_of(&words)
}

/// The names of the stored listings: each is a NAME.hex and a NAME.txt.
fn stored_names(extension: &str) -> Vec<String> {
    let mut names: Vec<String> = fs::read_dir(files::path("listings"))
        .unwrap()
        .map(|entry| entry.unwrap().path())
        .filter(|path| path.extension().is_some_and(|found| found == extension))
        .map(|path| path.file_stem().unwrap().to_str().unwrap().to_string())
        .collect();
    names.sort();
    names
}

#[test]
fn stored_listings() {
    let names = stored_names("hex");
    assert_eq!(names, stored_names("txt"));
    assert_eq!(names.len(), 15);
    for name in names {
        let read = |extension: &str| files::text(format!("listings/{name}.{extension}"));
        let (table, text) = (read_hex(&read("hex")), read("txt"));
        assert_eq!(listing(&table), text, "{name}, by the paper");
        assert_eq!(printed(&[&table]), text, "{name}, by the program");
    }
}

#[test]
fn lengths_of_the_input() {
    for (len, text) in [
        (0, "refused 1 at 0\n"),
        (7, "refused 1 at 0\n"),
        (8, "vars 0 nodes 0 count 1\n0 -\n"),
        (9, "refused 1 at 0\n"),
        (LONGEST - 1, "refused 1 at 0\n"),
        (LONGEST, "refused 1 at 0\n"),
        (LONGEST + 1, "too long\n"),
        (LONGEST + 8, "too long\n"),
        (2 * LONGEST, "too long\n"),
        (1_000_000, "too long\n"),
    ] {
        let zeros = vec![0; len];
        assert_eq!(printed(&[&zeros]), text, "{len} zero bytes");
    }
}

#[test]
fn input_in_pieces() {
    let mut rng = Rng::new(Rng::seed_of_run());
    let table = bytes_of(&tables::random_accepted(&mut rng, 12, 400));
    let text = listing(&table);
    for len in [table.len() / 40 + 1, table.len() / 3, table.len() - 1] {
        let pieces: Vec<&[u8]> = table.chunks(len).collect();
        assert_eq!(printed(&pieces), text);
    }
    assert_eq!(printed(&[&[0; LONGEST], &[0]]), "too long\n");
}

#[test]
fn random_listings() {
    let mut rng = Rng::new(Rng::seed_of_run());
    for round in 0..200 {
        let mut words = tables::of_any_size(&mut rng);
        if round % 4 == 3 {
            let refusal = rng.between(1, 9);
            damage::aim(&mut rng, &mut words, refusal);
        }
        let table = bytes_of(&words);
        assert_eq!(printed(&[&table]), listing(&table), "{words:016X?}");
    }
}
