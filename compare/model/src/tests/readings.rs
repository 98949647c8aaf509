//! The bench readings of document 01, one table per kind, and the examples of document 02's requests 1 and 9.

use super::{levels, permutation};
use crate::symbols::{number_of_prefix, prefix_length};
use crate::{count_up, digits, push, rank, read, rewrite, store, successor, unrank, NextStep, Reason, Spent};

const RANKS: [(&[u8], u64); 15] = [
    (&[1, 2], 0),
    (&[2, 1], 1),
    (&[1, 3, 2], 0),
    (&[2, 1, 3], 1),
    (&[3, 2, 1], 2),
    (&[2, 3, 1], 3),
    (&[1, 2, 3], 4),
    (&[3, 1, 2], 5),
    (&[1, 4, 2, 3], 0),
    (&[4, 2, 3, 1], 3),
    (&[1, 2, 3, 4], 10),
    (&[4, 1, 2, 3], 11),
    (&[4, 2, 1, 3], 23),
    (&[2, 5, 4, 3, 6, 1], 219),
    (&[1, 6, 4, 2, 3, 5], 0),
];

/// A permutation, the place of its next push and the next permutation; a place of 0 is not given by document 01.
const STEPS: [(&[u8], usize, &[u8]); 9] = [
    (&[1, 3, 2], 0, &[2, 1, 3]),
    (&[2, 1, 3], 0, &[3, 2, 1]),
    (&[3, 2, 1], 0, &[2, 3, 1]),
    (&[2, 3, 1], 0, &[1, 2, 3]),
    (&[1, 2, 3], 0, &[3, 1, 2]),
    (&[3, 1, 2], 0, &[1, 3, 2]),
    (&[4, 2, 3, 1], 2, &[2, 4, 3, 1]),
    (&[4, 1, 2, 3], 3, &[2, 4, 1, 3]),
    (&[4, 2, 1, 3], 0, &[1, 4, 2, 3]),
];

#[test]
fn ranks() {
    for (names, expected) in RANKS {
        assert_eq!(rank(&permutation(names)), Ok(expected), "{names:?}");
        assert_eq!(unrank(names.len(), expected), Ok(permutation(names)));
    }
    assert_eq!(digits(&permutation(&[2, 5, 4, 3, 6, 1])), Ok([3, 1, 3, 1, 0, 0, 0, 0, 0, 0, 0, 0, 0, 0, 0, 0, 0, 0, 0, 0]));
}

#[test]
fn steps() {
    for (names, expected, next) in STEPS {
        let place = successor(&permutation(names)).unwrap().place;
        assert!(expected == 0 || place == expected, "{names:?} {place}");
        assert_eq!(push(&permutation(names), place), Ok(permutation(next)));
    }
}

/// Document 02, request 9: how these steps are chosen, and those of two cells. Each row is a permutation, the place, the tests and the size. Those of three cells
/// are a whole round, of 6 tests.
#[test]
fn how_steps_are_chosen() {
    let table: [(&[u8], usize, usize, usize); 11] = [
        (&[1, 2], 2, 0, 2),
        (&[2, 1], 2, 0, 2),
        (&[1, 3, 2], 3, 1, 3),
        (&[2, 1, 3], 3, 1, 3),
        (&[3, 2, 1], 2, 1, 2),
        (&[2, 3, 1], 3, 1, 3),
        (&[1, 2, 3], 3, 1, 3),
        (&[3, 1, 2], 2, 1, 2),
        (&[4, 2, 3, 1], 2, 2, 3),
        (&[4, 1, 2, 3], 3, 2, 2),
        (&[4, 2, 1, 3], 3, 2, 2),
    ];
    for (names, place, tests, size) in table {
        assert_eq!(successor(&permutation(names)), Ok(NextStep { place, tests, size }), "{names:?}");
    }
}

#[test]
fn rewriting() {
    let mut group = levels(&[1, 2, 3, 4, 5], 50, 10);
    let mut list = [99; 6];
    assert_eq!(rewrite(&mut group, &permutation(&[5, 2, 1, 3, 4]), &mut list), Ok(Spent { pushes: 2, charge: 11 + 42 }));
    assert_eq!((list, group), ([2, 5, 99, 99, 99, 99], vec![50, 51, 30, 20, 52]));
}

#[test]
fn prefix_codes() {
    for (m, p) in [(4, 1), (5, 2), (12, 2), (13, 3)] {
        assert_eq!(prefix_length(4, m), p, "{m}");
    }
    assert_eq!(number_of_prefix(4, &[3, 1]), 6);
    let mut group = levels(&[4, 3, 2, 1], 3, 1);
    assert_eq!((store(&mut group, 12, 6), group), (Ok(Spent { pushes: 2, charge: 4 + 3 }), vec![4, 1, 5, 3]));
}

/// "With [3,1,2,4], 12 symbols and symbol 6 [..] none is needed."
#[test]
fn a_setting_that_stands() {
    for top in [3, 65_535] {
        let mut group = levels(&[3, 1, 2, 4], top, 1);
        assert_eq!((store(&mut group, 12, 6), group), (Ok(Spent { pushes: 0, charge: 0 }), levels(&[3, 1, 2, 4], top, 1)));
    }
}

#[test]
fn limits() {
    for (n, expected) in [(1, Err(Reason::Size)), (2, Ok(())), (20, Ok(())), (21, Err(Reason::Size))] {
        assert_eq!(unrank(n, 0).map(drop), expected);
        assert_eq!(read(&(0..n as u16).collect::<Vec<_>>()).map(drop), expected);
    }
    assert_eq!(unrank(3, 5), Ok(permutation(&[3, 1, 2])));
    assert_eq!(unrank(3, 6), Err(Reason::Value));
    let group = [65_530, 65_520, 0];
    assert_eq!(count_up(&mut group.clone(), 5), Ok(Spent { pushes: 5, charge: 65_531 + 2 + 13 + 3 + 2 }));
    assert_eq!(count_up(&mut group.clone(), 6), Err(Reason::Ceiling));
    assert_eq!(read(&[7, 7]), Err(Reason::Tie));
    assert_eq!(unrank(20, 2_432_902_008_176_640_000), Err(Reason::Value));
    assert_eq!(unrank(20, 2_432_902_008_176_639_999).and_then(|last| rank(&last)), Ok(2_432_902_008_176_639_999));
}
