//! The tables in `examples/tables`: each is built from what it permits, and compared with its file,
//! its text and its line in the README. `WRITE=1 cargo test --offline --test tables` writes the
//! files; the texts are written by hand.

use std::fs;

use setupbook_tests::call::{Answer, Call};
use setupbook_tests::comparison::Comparison;
use setupbook_tests::files;
use setupbook_tests::layout::bytes_of;
use setupbook_tests::listing::{digits, listing};
use setupbook_tests::tables::{self, TruthTable};

struct Sample {
    name: &'static str,
    words: Vec<u64>,
    /// How many setups are permitted, from what the table permits and not from its records.
    count: u64,
}

impl Sample {
    fn of_function(name: &'static str, function: &TruthTable) -> Sample {
        Sample {
            name,
            words: tables::from_truth_table(function),
            count: function.iter().filter(|permitted| **permitted).count() as u64,
        }
    }

    fn n(&self) -> u64 {
        self.words[0] >> 58
    }

    fn node_count(&self) -> u64 {
        self.words.len() as u64 - 1
    }
}

/// The setups of A: setting 1 is off, or settings 2 and 3 are alike.
fn a() -> TruthTable {
    (0..8)
        .map(|setup| setup & 4 == 0 || (setup >> 1) & 1 == setup & 1)
        .collect()
}

/// No two neighbouring settings are on. The state is whether the last setting was on.
fn path() -> Sample {
    let next = |state, on: bool| (state == 0 || !on).then_some(usize::from(on));
    // With one setting more, that is off, or on and the one beside it off.
    let (mut count, mut shorter) = (1, 1);
    for _ in 0..63 {
        (count, shorter) = (count + shorter, count);
    }
    Sample {
        name: "path63",
        words: tables::from_states(63, 2, next, |_| true),
        count,
    }
}

/// Exactly 31 settings are on.
fn exactly() -> Sample {
    // C(63, 31), factor by factor.
    let count = (1..=31u128).fold(1, |product, i| product * (63 - 31 + i) / i);
    Sample {
        name: "exactly31of63",
        words: tables::with_exactly(63, 31),
        count: count as u64,
    }
}

fn samples() -> Vec<Sample> {
    let opposite = a().iter().map(|permitted| !permitted).collect();
    vec![
        Sample::of_function("A", &a()),
        Sample::of_function("A_complemented", &opposite),
        Sample::of_function("A_part0of2", &tables::with_ranks(&a(), 0..3)),
        Sample::of_function("A_part1of2", &tables::with_ranks(&a(), 3..6)),
        path(),
        exactly(),
    ]
}

/// The path of a file there.
fn in_folder(name: &str) -> String {
    format!("../examples/tables/{name}")
}

fn text_of(name: &str) -> String {
    files::text(in_folder(name))
}

/// What a line `NAME: VALUE` of a text says.
fn value<'a>(text: &'a str, name: &str) -> Option<&'a str> {
    text.lines()
        .find_map(|line| line.strip_prefix(name)?.strip_prefix(": "))
}

/// The lines of a text that are set in: a listing.
fn set_in(text: &str) -> String {
    text.lines()
        .filter_map(|line| line.strip_prefix("    "))
        .map(|line| format!("{line}\n"))
        .collect()
}

#[test]
fn files_are_what_they_say() {
    for sample in samples() {
        let path = files::path(in_folder(&format!("{}.table", sample.name)));
        let table = bytes_of(&sample.words);
        if std::env::var_os("WRITE").is_some() {
            fs::write(&path, &table).unwrap();
        }
        assert!(
            fs::read(&path).is_ok_and(|bytes| bytes == table),
            "{} is missing or differs: WRITE=1 cargo test --offline --test tables writes it",
            path.display()
        );
    }
}

#[test]
fn no_other_tables() {
    let mut names: Vec<String> = samples()
        .iter()
        .flat_map(|sample| [".table", ".txt"].map(|end| sample.name.to_string() + end))
        .chain(["README.md".to_string()])
        .collect();
    let mut found: Vec<String> = fs::read_dir(files::path(in_folder("")))
        .unwrap()
        .map(|entry| entry.unwrap().file_name().into_string().unwrap())
        .collect();
    names.sort();
    found.sort();
    assert_eq!(found, names);
}

#[test]
fn the_library_counts_them() {
    let mut comparison = Comparison::of_run();
    for sample in samples() {
        let table = bytes_of(&sample.words);
        let shape = Answer::result((sample.n() << 32) + sample.node_count());
        assert_eq!(comparison.compare_served(Call::Check, &table), shape);
        let count = comparison.compare_served(Call::Count, &table);
        assert_eq!(count, Answer::result(sample.count), "{}", sample.name);
        comparison.compare_all(&table);
    }
}

#[test]
fn the_library_writes_the_parts() {
    let mut comparison = Comparison::of_run();
    let [whole, _, first, second, ..] = &samples()[..] else {
        panic!("A, its complement and its parts come first");
    };
    for (j, part) in (0..).zip([first, second]) {
        let written = comparison.written_part(&bytes_of(&whole.words), 2, j);
        assert_eq!(written, bytes_of(&part.words), "{}", part.name);
    }
}

#[test]
fn texts_say_what_is_so() {
    let mut comparison = Comparison::of_run();
    for sample in samples() {
        let (name, count) = (sample.name, sample.count);
        let text = text_of(&format!("{name}.txt"));
        for (field, number) in [
            ("n", sample.n()),
            ("N", sample.node_count()),
            ("count", count),
        ] {
            let said = value(&text, field);
            assert_eq!(said, Some(&number.to_string()[..]), "{field} in {name}.txt");
        }
        let table = bytes_of(&sample.words);
        if count <= 256 {
            assert_eq!(set_in(&text), listing(&table), "{name}.txt");
            continue;
        }
        for (field, rank) in [("first", 0), ("last", count - 1)] {
            let setup = comparison
                .compare_served(Call::Unrank { rank }, &table)
                .value();
            let setup = digits(setup, sample.n() as usize);
            assert_eq!(value(&text, field), Some(&setup[..]), "{name}.txt");
        }
    }
}

#[test]
fn the_readme_says_so_too() {
    let text = text_of("README.md");
    for sample in samples() {
        let (name, n, node_count) = (sample.name, sample.n(), sample.node_count());
        let start = format!("| [{name}]({name}.txt) | ");
        let end = format!(" | {n} | {node_count} | {} |", sample.count);
        let line = text.lines().find(|line| line.starts_with(&start));
        assert!(
            line.is_some_and(|line| line.ends_with(&end)),
            "{name}: {start}..{end}"
        );
    }
}
