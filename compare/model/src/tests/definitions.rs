//! Definitions and claims, over all small groups.

use super::{check_store, distances, levels, permutation, permutations, prefixes, pushed, replay};
use crate::permutations::{factorial, weight};
use crate::symbols::{number_of_prefix, prefix_length, prefix_of_symbol};
use crate::{count_up, digits, push, push_level, rank, rank_by_weights, read, read_symbol, rewrite, store, successor, unrank, NextStep, Reason, Spent};

/// n! steps from any start visit the ranks in sequence and return; no push raises a cell by more than n + 1 (document 001, theorem 7).
#[test]
fn a_walk_visits_all_ranks_in_sequence() {
    for n in 2..=6 {
        let starts = permutations(n);
        for start in &starts {
            let mut names = start.clone();
            let mut group = levels(start, 2 * n as u16, 1);
            for step in 0..starts.len() as u64 {
                let here = permutation(&names);
                assert_eq!(rank(&here).unwrap(), (rank(&permutation(start)).unwrap() + step) % starts.len() as u64);
                let place = successor(&here).unwrap().place;
                names = pushed(&names, place);
                assert_eq!(push(&here, place), Ok(permutation(&names)));
                let cell = usize::from(names[0]) - 1;
                let old = group[cell];
                let spent = push_level(&mut group, place);
                assert_eq!(usize::from(group[cell]), 2 * n + 1 + step as usize);
                assert!(usize::from(group[cell] - old) <= n + 1);
                assert_eq!(spent, Ok(Spent { pushes: 1, charge: u32::from(group[cell] - old) }));
            }
            assert_eq!(&names, start);
            assert_eq!(read(&group), Ok(permutation(start)));
        }
    }
}

/// Document 001's function, line by line; `tests` counts the comparisons of line 4.
fn successor_of_document_001(a: &[u8], tests: &mut usize) -> usize {
    let n = a.len();
    if n == 2 {
        return 2;
    }
    *tests += 1;
    if usize::from(a[0]) != n {
        return n;
    }
    let reflected: Vec<u8> = (1..n).map(|index| a[n - index]).collect();
    n - successor_of_document_001(&reflected, tests) + 1
}

/// Theorem 10: "is a_1 equal to n", then "is a_n equal to n-1". So the tops of the groups, shrinking, are at places 1, n, 2, n-1, ... of the whole one. Where the
/// answer falls, the lowest cell is pushed, which is the top of the next group.
fn step_from_both_ends(names: &[u8]) -> NextStep {
    let n = names.len();
    let tops: Vec<usize> = (1..=n).flat_map(|place| [place, n + 1 - place]).take(n).collect();
    let size = (3..=n).rev().find(|&size| usize::from(names[tops[n - size] - 1]) != size).unwrap_or(2);
    NextStep { place: tops[n - size + 1], tests: (3..=n).filter(|&tested| tested >= size).count(), size }
}

/// "The tests equal those of document 001's function, so n = 2 has none."
#[test]
fn a_step_has_the_tests_of_document_001() {
    for names in (2..=6).flat_map(permutations) {
        let step = successor(&permutation(&names)).unwrap();
        let mut tests = 0;
        let place = successor_of_document_001(&names, &mut tests);
        assert_eq!((step.place, step.tests), (place, tests), "{names:?}");
        assert!(names.len() > 2 || tests == 0);
    }
}

/// "The first whose largest cell is not on top, or 2"
#[test]
fn the_answer_falls_at_the_first_group_without_its_largest_on_top() {
    for names in (2..=6).flat_map(permutations) {
        assert_eq!(successor(&permutation(&names)), Ok(step_from_both_ends(&names)), "{names:?}");
    }
}

/// Each size of every group up to twenty cells. A group of that size, whose largest is not on top, or of two, is grown: each next cell comes on top of the others
/// in reverse.
#[test]
fn an_answer_at_each_size() {
    for (n, size) in (2..=20).flat_map(|n| (2..=n).map(move |size| (n, size))) {
        let mut names: Vec<u8> = (1..=size as u8).collect();
        for cell in size as u8 + 1..=n as u8 {
            names.push(cell);
            names.reverse();
        }
        let step = successor(&permutation(&names)).unwrap();
        assert_eq!(step, step_from_both_ends(&names));
        assert_eq!((step.tests, step.size), (if size == 2 { n - 2 } else { n - size + 1 }, size), "{names:?}");
    }
}

/// "Summed over a whole round of n! steps from any order, they are the sum of i! for i from 3 to n: 6 for three cells, 30 for four." By theorem 10's proof groups
/// of i cells are tested i! times.
#[test]
fn the_tests_of_a_whole_round() {
    for (n, total) in (2..).zip([0, 6, 30, 150, 870, 5_910]) {
        let round = factorial(n);
        assert_eq!((3..=n).map(factorial).sum::<u64>(), total);
        for start in (0..round).step_by(1 + round as usize / 50) {
            let first = unrank(n, start).unwrap();
            let (mut here, mut tests, mut tested) = (first, 0, vec![0; n + 1]);
            for _ in 0..round {
                let step = successor(&here).unwrap();
                tests += step.tests as u64;
                tested[step.size.max(3)..].iter_mut().for_each(|times| *times += 1);
                here = push(&here, step.place).unwrap();
            }
            assert_eq!((here, tests), (first, total), "{n} cells from rank {start}");
            assert!((3..=n).all(|size| tested[size] == factorial(size)), "{tested:?}");
        }
    }
}

/// Document 02, request 10: "The 420 weights, for n from 1 to 20 in 21 places each, with 0 past i = n". By hand for 1, 4 and 20 cells; each is the one before it
/// times a factor that falls by one from n on.
#[test]
fn weights_are_falling_factorials() {
    let row = |n| (0..=20).map(|i| weight(n, i)).collect::<Vec<_>>();
    assert_eq!(row(1)[..3], [1, 1, 0]);
    assert_eq!(row(4)[..6], [1, 4, 12, 24, 24, 0]);
    assert_eq!(row(20)[..3], [1, 20, 380]);
    assert_eq!(row(20)[18..], [1_216_451_004_088_320_000, 2_432_902_008_176_640_000, 2_432_902_008_176_640_000]);
    for n in 1..=20 {
        assert_eq!(weight(n, 0), 1);
        assert!((0..20).all(|i| weight(n, i + 1) == weight(n, i) * n.saturating_sub(i) as u64), "{n} cells");
        assert!((n + 1..=20).all(|i| weight(n, i) == 0), "{n} cells");
    }
}

/// "It must give the same rank for all orders." Of document 01's [2,5,4,3,6,1], with the digits 3, 1, 3, 1, 0, 0, it is 3 × 1 + 1 × 6 + 3 × 30 + 1 × 120.
#[test]
fn the_sum_by_weights_is_the_rank() {
    assert_eq!(rank_by_weights(&permutation(&[2, 5, 4, 3, 6, 1])), Ok(3 + 6 + 90 + 120));
    for order in (2..=7).flat_map(permutations).map(|names| permutation(&names)) {
        assert_eq!(rank_by_weights(&order), rank(&order), "{order:?}");
    }
    for n in 2..=20 {
        for number in (0..factorial(n)).step_by(1.max(factorial(n) as usize / 1000)).chain([factorial(n) - 1]) {
            assert_eq!(unrank(n, number).and_then(|order| rank_by_weights(&order)), Ok(number));
        }
    }
}

/// The ranks are 0 to n! - 1, each once; unrank finds the one permutation of a rank.
#[test]
fn unrank_is_the_inverse_of_rank() {
    for n in 2..=6 {
        let all = permutations(n);
        for number in 0..all.len() as u64 {
            let found: Vec<_> = all.iter().map(|names| permutation(names)).filter(|candidate| rank(candidate) == Ok(number)).collect();
            assert_eq!(found.len(), 1);
            assert_eq!(unrank(n, number), Ok(found[0]));
            let row = digits(&found[0]).unwrap();
            assert!(row[n - 1..].iter().all(|&digit| digit == 0));
        }
    }
}

/// Calls of count up leave what single steps on the levels leave, and spend what these spend; the top is the start's plus K.
#[test]
fn counting_in_calls_is_counting_in_steps() {
    for n in 2..=20_usize {
        let mut counted: Vec<u16> = (0..n as u16).map(|cell| cell * 7 % 23 * 100).collect();
        let mut stepped = counted.clone();
        let top = *counted.iter().max().unwrap();
        let mut total = 0;
        for k in [1, 0, 5, 2 * n as u32, 997] {
            let mut spent = Spent::default();
            for _ in 0..k {
                let place = successor(&read(&stepped).unwrap()).unwrap().place;
                let step = push_level(&mut stepped, place).unwrap();
                spent = Spent { pushes: spent.pushes + step.pushes, charge: spent.charge + step.charge };
            }
            assert_eq!(spent.pushes, k);
            assert_eq!(count_up(&mut counted, k), Ok(spent));
            total += k as u16;
            assert_eq!(counted, stepped);
            assert_eq!(counted.iter().max(), Some(&(top + total)));
        }
    }
}

/// Rewrite reaches the target by the least number of pushes, and its list names them in sequence.
#[test]
fn rewrite_is_least() {
    for n in 2..=5 {
        for start in permutations(n) {
            let known = distances(&start);
            assert_eq!(known.len(), permutations(n).len());
            for (target, &least) in &known {
                let mut group = levels(&start, 900, 3);
                let mut replayed = group.clone();
                let mut list = [77; 9];
                let spent = rewrite(&mut group, &permutation(target), &mut list);
                assert_eq!(read(&group), Ok(permutation(target)));
                let (used, later) = list.split_at(least as usize);
                assert_eq!(spent, Ok(Spent { pushes: least, charge: replay(&mut replayed, used.iter().copied()) }));
                assert_eq!(group, replayed);
                assert!(later.iter().all(|&byte| byte == 77));
            }
        }
    }
}

/// A symbol's prefix is entry number s of the sorted list of all prefixes of the least length p.
#[test]
fn symbols_number_the_sorted_prefixes() {
    for n in 2..=4 {
        for m in 1..=permutations(n).len() {
            let p = (0..=n).find(|&p| prefixes(n, p).len() >= m).unwrap();
            assert_eq!(prefix_length(n, m as u64), p);
            let mut sorted = prefixes(n, p);
            sorted.sort();
            for (symbol, prefix) in (0..).zip(&sorted) {
                assert_eq!(&prefix_of_symbol(n, p, symbol), prefix);
                assert_eq!(number_of_prefix(n, prefix), symbol);
            }
            for start in permutations(n) {
                check_stores(&start, &sorted, m);
            }
        }
    }
}

/// What was stored is read back; a start with no symbol is idle.
fn check_stores(start: &[u8], sorted: &[Vec<u8>], m: usize) {
    let known = distances(start);
    let before = levels(start, 40, 2);
    let leading = sorted.iter().position(|prefix| start.starts_with(prefix)).unwrap();
    let expected = if leading < m { Ok(leading as u64) } else { Err(Reason::Idle) };
    assert_eq!(read_symbol(&before, m as u64), expected);
    for (symbol, prefix) in (0..).zip(&sorted[..m]) {
        let after = check_store(&known, &before, prefix, |lent| store(lent, m as u64, symbol));
        assert_eq!(read_symbol(&after, m as u64), Ok(symbol));
    }
}
