//! Loose tables worked out by hand: table A written otherwise, the paper's refused tables that are
//! loose ones, and some that are refused here too.

use setupbook_tests::call::{Answer, Call, Refusal};
use setupbook_tests::comparison::{front, Comparison};
use setupbook_tests::layout::bytes_of;

const A: [u64; 4] = [
    0x0C00000060000006,
    0x0400000000000001,
    0x0800000040000003,
    0x0C00000080000000,
];

/// A with another header, or with another record.
fn a_with(place: usize, word: u64) -> [u64; 4] {
    let mut words = A;
    words[place] = word;
    words
}

/// A in the opposite order, with any record in the middle.
fn opposite(middle: u64) -> [u64; 4] {
    [0x0C00000060000002, A[3], middle, A[1]]
}

/// Node 1 of A twice.
const TWICE: [u64; 5] = [
    0x0C00000080000008,
    A[1],
    A[1],
    0x0800000040000005,
    0x0C000000C0000000,
];

/// Two equal edges below node 3 of A, and a node that nothing names.
const MORE: [u64; 6] = [
    0x0C000000A0000006,
    A[1],
    A[2],
    0x0C00000080000008,
    0x0400000000000000,
    A[2],
];

/// A's node 2 as the root, and node 1 straight below a node of height 3.
const LOWER: [u64; 3] = [0x0C00000040000004, A[1], A[2]];
const STRAIGHT: [u64; 3] = [0x0C00000040000004, A[1], 0x0C00000040000000];

/// Loose tables, each with the proper one.
fn served_samples() -> Vec<(Vec<u64>, Vec<u64>)> {
    let turned_node = [A[0], 0x0400000020000000, 0x0800000060000002, A[3]];
    let turned_flag = [0x0C00000060000007, A[1], A[2], 0x0C00000080000001];
    let sample = |loose: &[u64], proper: &[u64]| (loose.to_vec(), proper.to_vec());
    vec![
        sample(&A, &A),
        sample(&opposite(0x08000000C0000007), &A),
        sample(&turned_node, &A),
        sample(&TWICE, &A),
        sample(&MORE, &A),
        // Other roots: node 2, the sink, and the sink flagged.
        sample(&a_with(0, 0x0C00000060000004), &LOWER),
        sample(&a_with(0, 0x0C00000060000000), &[0x0C00000000000000]),
        sample(&a_with(0, 0x0C00000060000001), &[0x0C00000000000001]),
        // Refused by 7, 5, 8 and 9 elsewhere.
        sample(&a_with(1, 0x0400000020000000), &turned_flag),
        sample(&a_with(2, 0x0400000000000001), &STRAIGHT),
        sample(&a_with(3, 0x0C00000080000004), &LOWER),
        sample(&a_with(3, 0x0C00000040000000), &STRAIGHT),
    ]
}

/// The table, the refusal and its place.
fn refused_samples() -> Vec<(Vec<u8>, u64, u64)> {
    let edge_first = [0x0800000040000004, 0x0800000000000001, 0x0400000040000001];
    let table = |words: &[u64], number, place| (bytes_of(words), number, place);
    vec![
        (vec![0; 7], 1, 0),
        (bytes_of(&A)[..31].to_vec(), 1, 0),
        table(&[0x0C00200000000000], 2, 0),
        table(&a_with(0, 0x0C00000060000008), 3, 0),
        table(&a_with(1, 0x0000000000000001), 4, 1),
        table(&a_with(3, 0x1000000080000000), 4, 3),
        // Edges to the record itself, to a later one of greater height, and to node 4.
        table(&a_with(2, 0x0800000080000001), 6, 2),
        table(&a_with(1, 0x0400000080000001), 6, 1),
        table(&a_with(3, 0x0C00000080000008), 6, 3),
        // An edge of record 1 to record 2, of height 0 and of a height above n.
        table(&opposite(0x00000000C0000007), 4, 2),
        table(&opposite(0x10000000C0000007), 6, 1),
        table(&edge_first, 6, 2),
    ]
}

fn refused(number: u64, place: u64) -> Answer {
    Answer::refused(Refusal::new(number, place))
}

fn ones(places: usize) -> Vec<u8> {
    vec![0xFF; 8 * places]
}

/// With 8N + 512 places, all ones, and three more; and with one byte less than 8N + 512 places.
#[test]
fn loose_tables() {
    let mut comparison = Comparison::of_run();
    for (loose, proper) in served_samples() {
        let places = 8 * (loose.len() - 1) + 512;
        let [table, written] = [&loose, &proper].map(|words| bytes_of(words));
        let mut make =
            |sheet: &[u8], out: &[u8]| comparison.compare(Call::MakeProper, &table, sheet, out);
        let blank = [vec![0; 8 * places], ones(3)].concat();
        for spare in [0, 1, 24] {
            let out = vec![0xFF; written.len() + spare];
            let outcome = make(&ones(places + 3), &out);
            assert_eq!(outcome.answer, Answer::result(written.len() as u64));
            assert_eq!(outcome.sheet, blank);
            assert_eq!(front(&outcome), written);
            assert_eq!(outcome.out[written.len()..], vec![0xFF; spare]);
        }
        let out = vec![0xFF; written.len() - 1];
        let outcome = make(&ones(places + 3), &out);
        assert_eq!(outcome.answer, refused(11, 0));
        assert_eq!((outcome.sheet, outcome.out), (blank, out.clone()));

        let sheet = &ones(places)[1..];
        let outcome = make(sheet, &out);
        assert_eq!(outcome.answer, refused(10, 0));
        assert_eq!((&*outcome.sheet, outcome.out), (sheet, out));
    }
}

#[test]
fn refused_loose_tables() {
    let mut comparison = Comparison::of_run();
    for (table, number, place) in refused_samples() {
        let (sheet, out) = (ones(600), ones(8));
        let outcome = comparison.compare(Call::MakeProper, &table, &sheet, &out);
        assert_eq!(outcome.answer, refused(number, place));
        assert_eq!((outcome.sheet, outcome.out), (sheet, out));
    }
}
