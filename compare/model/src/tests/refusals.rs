//! The table of reasons: each reason alone, and the lowest number where several hold.

use super::permutation;
use crate::Reason::{self, Ceiling, Fit, Idle, Muddle, Size, Tie, Value};
use crate::{count_up, digits, push, push_level, rank, read, read_symbol, rewrite, store, successor, unrank, Permutation};

const DOCUMENTS: [(Reason, u8); 10] =
    [(Size, 1), (Fit, 2), (Muddle, 3), (Tie, 4), (Value, 5), (Ceiling, 6), (Idle, 7), (Reason::Sheet, 8), (Reason::Paper, 9), (Reason::Unsure, 10)];

#[test]
fn numbers() {
    assert!(DOCUMENTS.iter().all(|&(reason, number)| reason as u8 == number));
}

/// A record with n and cells as given, zeros past.
fn record(n: usize, names: &[u8]) -> Permutation {
    Permutation { n, ..permutation(names) }
}

#[test]
fn records() {
    let mut past = permutation(&[1, 2]);
    past.cells[19] = 3;
    let last = record(20, &(1..=20).collect::<Vec<_>>());
    let table = [
        (record(0, &[]), Some(Size)),
        (record(1, &[1]), Some(Size)),
        (record(21, &[1, 1]), Some(Size)),
        (record(usize::MAX, &[255; 20]), Some(Size)),
        (record(2, &[1, 1]), Some(Muddle)),
        (record(2, &[0, 1]), Some(Muddle)),
        (record(2, &[1, 3]), Some(Muddle)),
        (record(3, &[1, 2]), Some(Muddle)),
        (record(2, &[1, 2, 3]), Some(Muddle)),
        (record(20, &[255; 20]), Some(Muddle)),
        (past, Some(Muddle)),
        (record(2, &[2, 1]), None),
        (last, None),
    ];
    for (input, expected) in table {
        for place in [0, 1, 2, input.n, input.n.wrapping_add(1), usize::MAX] {
            let place_expected = expected.or((place < 2 || place > input.n).then_some(Value));
            assert_eq!(push(&input, place).err(), place_expected, "{input:?} {place}");
        }
        assert_eq!(successor(&input).err(), expected, "{input:?}");
        assert_eq!(digits(&input).err(), expected);
        assert_eq!(rank(&input).err(), expected);
    }
}

#[test]
fn ranks() {
    let table = [(0, 0, Some(Size)), (1, 1, Some(Size)), (usize::MAX, u64::MAX, Some(Size)), (2, 1, None), (2, 2, Some(Value)), (20, u64::MAX, Some(Value))];
    for (n, number, expected) in table {
        assert_eq!(unrank(n, number).err(), expected, "{n} {number}");
    }
}

/// The reason of a job on these levels, which must stay as they are when it is refused.
fn reason<T>(levels: &[u16], job: impl Fn(&mut [u16]) -> Result<T, Reason>) -> Option<Reason> {
    let mut lent = levels.to_vec();
    let reason = job(&mut lent).err();
    assert!(reason.is_none() || lent == levels);
    reason
}

const SMALL: [u16; 1] = [65_535];
const LARGE: [u16; 21] = [65_535; 21];
const TIED: [u16; 3] = [65_535, 1, 65_535];
const FULL: [u16; 3] = [65_535, 1, 0];
const GOOD: [u16; 3] = [65_534, 1, 0];

#[test]
fn charge_levels() {
    for (levels, expected) in [(&[][..], Some(Size)), (&SMALL, Some(Size)), (&LARGE, Some(Size)), (&TIED, Some(Tie))] {
        assert_eq!(read(levels).err(), expected);
        assert_eq!(reason(levels, |lent| push_level(lent, 0)), expected);
        assert_eq!(reason(levels, |lent| count_up(lent, u32::MAX)), expected);
        assert_eq!(reason(levels, |lent| store(lent, 0, u64::MAX)), expected);
        assert_eq!(read_symbol(levels, u64::MAX).err(), expected);
    }
    for (place, full, good) in [
        (0, Some(Value), Some(Value)),
        (1, Some(Value), Some(Value)),
        (2, Some(Ceiling), None),
        (3, Some(Ceiling), None),
        (4, Some(Value), Some(Value)),
        (usize::MAX, Some(Value), Some(Value)),
    ] {
        assert_eq!((reason(&FULL, |lent| push_level(lent, place)), reason(&GOOD, |lent| push_level(lent, place))), (full, good));
    }
    for (k, full, good) in [(0, None, None), (1, Some(Ceiling), None), (2, Some(Ceiling), Some(Ceiling)), (u32::MAX, Some(Ceiling), Some(Ceiling))] {
        assert_eq!((reason(&FULL, |lent| count_up(lent, k)), reason(&GOOD, |lent| count_up(lent, k))), (full, good));
    }
}

#[test]
fn symbols() {
    // The order is [1,2,3]; m = 6 has p = 2, m = 3 has p = 1.
    let table = [
        (0, 0, Some(Value), Some(Value)),
        (7, 0, Some(Value), Some(Value)),
        (u64::MAX, u64::MAX, Some(Value), Some(Value)),
        (3, 3, Some(Value), Some(Value)),
        (1, 0, None, None),
        (3, 0, None, None),
        (3, 1, Some(Ceiling), None),
        (6, 0, None, None),
        (6, 2, Some(Ceiling), None),
        (6, 5, Some(Ceiling), Some(Ceiling)),
    ];
    for (m, symbol, full, good) in table {
        assert_eq!((reason(&FULL, |lent| store(lent, m, symbol)), reason(&GOOD, |lent| store(lent, m, symbol))), (full, good), "{m} {symbol}");
    }
    for (m, expected) in [(0, Some(Value)), (7, Some(Value)), (1, None), (2, Some(Idle)), (3, None), (4, Some(Idle)), (5, Some(Idle)), (6, None)] {
        assert_eq!(read_symbol(&[0, 1, 65_535], m).err(), expected, "{m}");
    }
}

#[test]
fn rewrites() {
    let muddled = record(3, &[3, 3, 3]);
    let far = record(3, &[3, 2, 1]);
    let near = record(3, &[2, 1, 3]);
    let table: [(&[u16], Permutation, usize, Option<Reason>); 16] = [
        (&SMALL, far, 0, Some(Size)),
        (&LARGE, far, 0, Some(Size)),
        (&TIED, record(1, &[9]), 0, Some(Size)),
        (&TIED, record(21, &[9]), 0, Some(Size)),
        (&TIED, record(usize::MAX, &[9]), 0, Some(Size)),
        (&TIED, record(4, &[9]), 9, Some(Fit)),
        (&TIED, record(2, &[2, 1]), 9, Some(Fit)),
        (&TIED, muddled, 1, Some(Fit)),
        (&TIED, muddled, 2, Some(Muddle)),
        (&TIED, far, 2, Some(Tie)),
        (&FULL, muddled, 2, Some(Muddle)),
        (&FULL, near, 2, Some(Ceiling)),
        (&FULL, record(3, &[1, 2, 3]), 2, None),
        (&GOOD, far, 1, Some(Fit)),
        (&GOOD, far, 2, Some(Ceiling)),
        (&GOOD, near, 2, None),
    ];
    for (levels, target, length, expected) in table {
        let job = |lent: &mut [u16]| {
            let mut list = vec![88; length];
            let result = rewrite(lent, &target, &mut list);
            assert!(result.is_ok() || list.iter().all(|&byte| byte == 88));
            result
        };
        assert_eq!(reason(levels, job), expected, "{levels:?} {target:?} {length}");
    }
}
