//! Charge spent: document 02, request 3.

use super::{levels, permutation, permutations, prefixes};
use crate::{count_up, push_level, rank, read, read_symbol, rewrite, store, Reason, Spent};

/// Cells 2, 3, 2, 1 at places 3, 3, 2, 3 go from 1, 2, 4, 3 to 4, 5, 6, 7; then cell 3 goes from 5 to 8.
#[test]
fn the_bench_example() {
    let (mut group, mut single) = ([3, 1, 2], [3, 1, 2]);
    assert_eq!((count_up(&mut group, 4), group), (Ok(Spent { pushes: 4, charge: 12 }), [7, 6, 5]));
    for (place, charge) in [(3, 3), (3, 3), (2, 2), (3, 4)] {
        assert_eq!(push_level(&mut single, place), Ok(Spent { pushes: 1, charge }));
    }
    assert_eq!(single, group);
    assert_eq!(rewrite(&mut group, &permutation(&[3, 1, 2]), &mut [0; 2]), Ok(Spent { pushes: 1, charge: 3 }));
    assert_eq!((store(&mut group, 3, 3), group), (Err(Reason::Value), [7, 6, 8]));
}

type Job = fn(&mut [u16]) -> Result<Spent, Reason>;

/// One push can jump over the whole range.
#[test]
fn from_the_bottom_to_the_ceiling() {
    let rewrite: Job = |group| rewrite(group, &permutation(&[1, 2]), &mut [0]);
    for job in [rewrite, |group| push_level(group, 2), |group| count_up(group, 1), |group| store(group, 2, 0)] {
        let mut group = [0, 65_534];
        assert_eq!((job(&mut group), group), (Ok(Spent { pushes: 1, charge: 65_535 }), [65_535, 65_534]));
    }
}

/// 19 pushes almost from the bottom to the ceiling: for i from 1 to 19, cell i + 1 goes from 19 - i to 65,516 + i. So the total is 19 times 65,497, and twice 190.
#[test]
fn a_total_past_16_bits() {
    let (cells, reversed): (Vec<u8>, Vec<u8>) = ((1..=20).collect(), (1..=20).rev().collect());
    let mut group = levels(&cells, 19, 1);
    group[0] = 65_516;
    assert_eq!(rewrite(&mut group, &permutation(&reversed), &mut [0; 19]), Ok(Spent { pushes: 19, charge: 1_244_823 }));
    assert_eq!(group, levels(&reversed, 65_535, 1));
}

/// Without a push no charge is spent, at the ceiling as below it: a count up by 0, a rewrite to the order that stands, a store of the symbol that stands.
#[test]
fn no_push() {
    for (names, top) in (2..=4).flat_map(permutations).flat_map(|names| [(names.clone(), 65_535), (names, 30)]) {
        let (before, most) = (levels(&names, top, 7), permutations(names.len()).len() as u64);
        let mut group = before.clone();
        assert_eq!(count_up(&mut group, 0), Ok(Spent::default()));
        assert_eq!(rewrite(&mut group, &permutation(&names), &mut [0; 20]), Ok(Spent::default()));
        for (m, symbol) in (1..=most).filter_map(|m| Some((m, read_symbol(&before, m).ok()?))) {
            assert_eq!(store(&mut group, m, symbol), Ok(Spent::default()));
        }
        assert_eq!(group, before);
    }
}

/// "The total equals the sum of all levels afterwards less the sum before." A push takes a cell from below the top to above it, so that its jump is 2 or more.
fn check_total(before: &[u16], job: impl Fn(&mut [u16]) -> Result<Spent, Reason>) {
    let sum = |levels: &[u16]| levels.iter().map(|&level| u32::from(level)).sum::<u32>();
    let mut after = before.to_vec();
    let spent = job(&mut after).unwrap();
    assert_eq!(spent.charge, sum(&after) - sum(before), "{before:?} {after:?}");
    assert!(spent.charge >= 2 * spent.pushes);
}

/// Every job that is done, on all lists of two to four levels out of six.
#[test]
fn totals() {
    for list in (2..=4).flat_map(|n| prefixes(6, n)) {
        let group: Vec<u16> = list.iter().map(|&index| [0, 1, 2, 5, 300, 65_500][usize::from(index) - 1]).collect();
        let all = permutations(group.len());
        for place in 2..=group.len() {
            check_total(&group, |lent| push_level(lent, place));
        }
        for k in 0..=all.len() as u32 + 2 {
            check_total(&group, |lent| count_up(lent, k));
        }
        for target in &all {
            check_total(&group, |lent| rewrite(lent, &permutation(target), &mut [0; 20]));
        }
        for (m, symbol) in (1..=all.len() as u64).flat_map(|m| (0..m).map(move |symbol| (m, symbol))) {
            check_total(&group, |lent| store(lent, m, symbol));
        }
    }
}

/// Without a gap the cell at place i stands i - 1 below the top, and comes to stand 1 above.
#[test]
fn gapless_levels_are_raised_by_the_place() {
    for n in 2..=20 {
        let names: Vec<u8> = (1..=n).collect();
        for place in 2..=n {
            let spent = push_level(&mut levels(&names, 40, 1), usize::from(place));
            assert_eq!(spent, Ok(Spent { pushes: 1, charge: place.into() }));
        }
    }
}

/// Two cells are pushed by turns. The first push raises the lower one by its distance from the top and 1, and leaves no gap; each later one raises by 2.
#[test]
fn two_cells() {
    for (below, k) in (1..=9).flat_map(|below| (1..=9).map(move |k| (below, k))) {
        assert_eq!(count_up(&mut [20, 20 - below], k), Ok(Spent { pushes: k, charge: u32::from(below) + 1 + 2 * (k - 1) }));
    }
}

/// A round of three cells pushes 2, 3, 2, 1, 3, 1. The levels that it leaves are those of the last push of each cell. Ranks 0 and 3 are reached by 1, 3, 1 and by
/// 2, 3, 2: the third cell was pushed one step before these, and its level has risen by 5. To each other rank lead pushes of three different cells, and every
/// level has risen by 6.
#[test]
fn a_round_of_three_cells() {
    for names in permutations(3) {
        let spent = count_up(&mut levels(&names, 2, 1), 6).unwrap();
        let charge = [17, 18, 18, 17, 18, 18][rank(&permutation(&names)).unwrap() as usize];
        assert_eq!(spent, Spent { pushes: 6, charge }, "{names:?}");
    }
}

/// A round from levels without a gap leaves the same order, its top n! higher. Top less bottom is n at most, so that one level at most is left out between them; it
/// is not the one below the top, since the last two pushes were of different cells. A cell has risen by n!, or by one less where it stands below the level left out.
/// So the charge is n times n!, less the number of these cells: n - 2 at most, and 0 exactly where the levels have no gap again.
#[test]
fn a_round_from_gapless_levels() {
    for names in (2..=6).flat_map(permutations) {
        let (n, round) = (names.len(), permutations(names.len()).len() as u32);
        let before = levels(&names, n as u16 - 1, 1);
        let mut after = before.clone();
        let spent = count_up(&mut after, round).unwrap();
        assert_eq!(read(&after), Ok(permutation(&names)));
        let rises: Vec<u32> = before.iter().zip(&after).map(|(before, after)| u32::from(after - before)).collect();
        assert!(rises.iter().all(|&rise| rise == round || rise == round - 1));
        let less = rises.iter().filter(|&&rise| rise < round).count();
        assert_eq!(spent, Spent { pushes: round, charge: n as u32 * round - less as u32 });
        assert!(less <= n - 2);
        let gapless = usize::from(after.iter().max().unwrap() - after.iter().min().unwrap()) == n - 1;
        assert_eq!(less == 0, gapless);
    }
}

/// A round after a round pushes the same cells in the same sequence. Each cell's last push, which gives it its level, comes n! steps after that of the round before:
/// each level has risen by n!, whatever the first levels were, and the charge is n times n!.
#[test]
fn a_round_after_a_round() {
    for (names, gap) in (2..=6).flat_map(permutations).flat_map(|names| [(names.clone(), 1), (names, 100)]) {
        let (n, round) = (names.len() as u32, permutations(names.len()).len() as u32);
        let mut group = levels(&names, 900, gap);
        count_up(&mut group, round).unwrap();
        let risen: Vec<u16> = group.iter().map(|&level| level + round as u16).collect();
        assert_eq!(count_up(&mut group, round), Ok(Spent { pushes: round, charge: n * round }));
        assert_eq!(group, risen);
    }
}
