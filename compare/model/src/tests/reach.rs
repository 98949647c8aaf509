//! Orders within reach: document 02, request 6.

use super::{levels, permutation, permutations, prefixes};
use crate::Reason::{self, Fit, Size, Tie, Value};
use crate::{rewrite, within_reach};

/// The orders listed in a lent list of so many bytes. "Bytes past the last order keep their values", and all do where it is refused.
fn listed_in(room: usize, levels: &[u16], r: usize) -> Result<Vec<Vec<u8>>, Reason> {
    let n = levels.len();
    let mut list = vec![99; room];
    let count = within_reach(levels, r, &mut list);
    let (listing, past) = list.split_at(n * count.unwrap_or(0));
    assert!(past.iter().all(|&byte| byte == 99));
    count.map(|_| listing.chunks(n).map(<[u8]>::to_vec).collect())
}

fn listed(levels: &[u16], r: usize) -> Result<Vec<Vec<u8>>, Reason> {
    listed_in(65_536, levels, r)
}

/// The model's own number, by the sentence on rewriting, of which `rewrite_is_least` shows that it is the least.
fn rewrite_pushes(start: &[u8], target: &[u8]) -> u32 {
    rewrite(&mut levels(start, 900, 3), &permutation(target), &mut [0; 20]).unwrap().pushes
}

/// By hand, a row for each number of pushes.
#[test]
fn two_three_and_four_cells() {
    let two: [&[[u8; 2]]; 2] = [&[[2, 1]], &[[1, 2]]];
    let three: [&[[u8; 3]]; 3] = [&[[1, 3, 2]], &[[2, 1, 3], [3, 1, 2]], &[[1, 2, 3], [2, 3, 1], [3, 2, 1]]];
    let four: [&[[u8; 4]]; 3] = [
        &[[1, 2, 3, 4]],
        &[[2, 1, 3, 4], [3, 1, 2, 4], [4, 1, 2, 3]],
        &[[1, 3, 2, 4], [1, 4, 2, 3], [2, 3, 1, 4], [2, 4, 1, 3], [3, 2, 1, 4], [3, 4, 1, 2], [4, 2, 1, 3], [4, 3, 1, 2]],
    ];
    fn check<const N: usize>(rows: &[&[[u8; N]]]) {
        for r in 0..rows.len() {
            assert_eq!(listed(&levels(&rows[0][0], 40, 1), r), Ok(rows[..=r].concat().iter().map(|names| names.to_vec()).collect()));
        }
    }
    check(&two);
    check(&three);
    check(&four);
}

/// "Every order whose least number of pushes from the present one [..] is at most r, each exactly once"; "fewest pushes come first, then lexicographic sequence."
/// These are n!/(n-r)!: none but the present one without a push, and all n! with n - 1.
#[test]
fn every_start_to_five_cells() {
    for start in (2..=5).flat_map(permutations) {
        let n = start.len();
        let mut all: Vec<(u32, Vec<u8>)> = permutations(n).into_iter().map(|target| (rewrite_pushes(&start, &target), target)).collect();
        all.sort();
        for r in 0..n {
            let within: Vec<Vec<u8>> = all.iter().filter(|(pushes, _)| *pushes <= r as u32).map(|(_, target)| target.clone()).collect();
            assert_eq!(within.len(), prefixes(n, r).len());
            assert_eq!(listed(&levels(&start, 40, 2), r), Ok(within), "{start:?} {r}");
        }
        assert_eq!(listed(&levels(&start, 40, 2), 0), Ok(vec![start.clone()]));
        assert_eq!(listed(&levels(&start, 40, 2), n - 1).map(|all| all.len()), Ok(permutations(n).len()));
    }
}

/// The most pushes that are taken of 2 to 20 cells, and how many orders there are then: n - 1 and n!, up to seven cells.
const MOST: [(usize, usize); 19] = [
    (1, 2),
    (2, 6),
    (3, 24),
    (4, 120),
    (5, 720),
    (6, 5040),
    (5, 6720),
    (4, 3024),
    (4, 5040),
    (3, 990),
    (3, 1320),
    (3, 1716),
    (3, 2184),
    (3, 2730),
    (3, 3360),
    (2, 272),
    (2, 306),
    (2, 342),
    (2, 380),
];

/// Of each, from some start, the orders rise by pushes and then by names, so that each is there once; and they are as many as the paper says.
#[test]
fn the_longest_listing_of_every_size() {
    for (n, (r, count)) in (2..=20).zip(MOST) {
        let (even, odd): (Vec<u8>, Vec<u8>) = (1..=n as u8).partition(|name| name % 2 == 0);
        let start = [even, odd].concat();
        let all = listed(&levels(&start, 40, 2), r).unwrap();
        assert_eq!(all.len(), count, "{n}");
        let keys: Vec<(u32, &Vec<u8>)> = all.iter().map(|names| (rewrite_pushes(&start, names), names)).collect();
        assert_eq!(keys[0], (0, &start));
        assert!(keys.windows(2).all(|pair| pair[0] < pair[1]), "{n}");
        assert_eq!(keys[count - 1].0, r as u32);
    }
}

/// "A value of r above n - 1, or a list that would exceed 65,536 bytes, is value"; all else is done.
#[test]
fn the_most_pushes_of_every_size() {
    for (n, (most, _)) in (2..=20).zip(MOST) {
        let group: Vec<u16> = (0..n as u16).collect();
        for r in (0..=n + 1).chain([255, 256, 257, 1 << 32, 1 << 32 | 1, usize::MAX - 1, usize::MAX]) {
            let expected = if r <= most { None } else { Some(Value) };
            assert_eq!(listed(&group, r).err(), expected, "{n} {r}");
        }
    }
}

/// The longest listings have 53,760 bytes; the next would have 69,360. None has just 65,536.
#[test]
fn bytes_about_the_limit() {
    for (n, r, bytes, taken) in [(8, 5, 53_760, true), (16, 3, 53_760, true), (17, 3, 69_360, false), (11, 4, 87_120, false), (8, 6, 161_280, false)] {
        let group: Vec<u16> = (0..n).collect();
        assert_eq!(listed_in(bytes, &group, r).err(), if taken { None } else { Some(Value) }, "{n} {r}");
        assert_eq!(listed_in(bytes - 1, &group, r).err(), Some(if taken { Fit } else { Value }), "{n} {r}");
    }
}

#[test]
fn lent_lists_of_every_length() {
    let (group, all) = (levels(&[3, 1, 4, 2], 9, 2), listed(&levels(&[3, 1, 4, 2], 9, 2), 2).unwrap());
    for room in 0..60 {
        assert_eq!(listed_in(room, &group, 2), if room < 48 { Err(Fit) } else { Ok(all.clone()) }, "{room}");
    }
}

/// "It does no push and judges no ceiling": levels of the same order give the same, at the ceiling too.
#[test]
fn no_ceiling() {
    for names in permutations(4) {
        let all = listed(&levels(&names, 3, 1), 3);
        assert!([(65_535, 1), (65_535, 21_845), (900, 7)].into_iter().all(|(top, gap)| listed(&levels(&names, top, gap), 3) == all));
    }
}

/// The levels, r, and how many bytes are lent.
type Lent = (Vec<u16>, usize, usize);

/// The reason of a fault, and how to make it.
type Fault = (Reason, fn(&mut Lent));

/// Faults of the listing of eight cells by five pushes, in the sequence in which they are judged.
const FAULTS: [Fault; 8] = [
    (Size, |lent| lent.0.truncate(1)),
    (Size, |lent| lent.0.resize(21, 50)),
    (Tie, |lent| lent.0[0] = lent.0[7]),
    (Value, |lent| lent.1 = usize::MAX),
    (Value, |lent| lent.1 = 8),
    (Value, |lent| lent.1 = 6),
    (Fit, |lent| lent.2 = 0),
    (Fit, |lent| lent.2 = 53_759),
];

/// Every choice of these faults, made from the last to the first. "Fit, judged here after value".
#[test]
fn refusals_in_sequence() {
    for choice in 0..1_u32 << FAULTS.len() {
        let (mut lent, mut first) = (((0..8).collect(), 5, 53_760), None);
        for (_, (reason, fault)) in FAULTS.iter().enumerate().filter(|(place, _)| choice >> place & 1 == 1).rev() {
            fault(&mut lent);
            first = Some(*reason);
        }
        assert_eq!(listed_in(lent.2, &lent.0, lent.1).err(), first, "{choice:b}");
    }
    assert_eq!(listed_in(0, &[], usize::MAX), Err(Size));
}
