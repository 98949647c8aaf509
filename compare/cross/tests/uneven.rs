//! Uneven codes: the prefix of a symbol, storing and reading, and refusals.
use cross::cases::{factorial, levels_or_tie, lists, permutations, tops, uneven_codes, CEILING, WRONG_SIZES};
use cross::weights::{ANY, EQUAL, KINDS, SHRINKING};
use cross::{Cross, Random};
use turretmedlar::{Reason, Spent};

/// Document 001's example 21, with the prefixes of its figure 4(b).
const WEIGHTS: [u16; 9] = [9, 8, 7, 6, 5, 4, 3, 2, 1];
const FIGURE: [&[u8]; 9] = [&[1], &[2], &[3, 1], &[3, 2], &[3, 4], &[4, 1], &[4, 2], &[4, 3, 1], &[4, 3, 2]];

/// Stores, and where that is done reads the symbol back; else reads what stands.
fn store(cross: &mut Cross, levels: &[u16], weights: &[u16], m: u64, symbol: u64) -> Option<Vec<u16>> {
    let after = cross.store_uneven(levels, weights, m, symbol);
    cross.read_uneven(after.as_deref().unwrap_or(levels), weights, m);
    if let Some(after) = &after {
        assert_eq!(turretmedlar::read_uneven(after, weights, m), Ok(symbol), "after the store in {levels:?}");
    }
    after
}

/// The library alone: the names of each symbol's prefix.
fn prefixes(n: usize, weights: &[u16]) -> Vec<Vec<u8>> {
    let m = weights.len() as u64;
    let names = |symbol| turretmedlar::prefix_uneven(n, weights, m, symbol).expect("a symbol of the code").names().to_vec();
    (0..m).map(names).collect()
}

/// All jobs with weights that are as many as the symbols: a prefix, a store on random levels and a read of others.
fn jobs(cross: &mut Cross, random: &mut Random, n: usize, weights: &[u16], symbol: u64) {
    let m = weights.len() as u64;
    cross.prefix_uneven(n, weights, m, symbol);
    let (levels, others) = (random.group(n), random.group(n));
    store(cross, &levels, weights, m, symbol);
    cross.read_uneven(&others, weights, m);
}

/// All lists of weights from 0 to 2 for two and three cells, and of 0 and 1 for up to seven symbols on four; each symbol of each.
#[test]
fn every_code_of_small_weights() {
    let (mut cross, mut random) = (Cross::default(), Random::seeded(901));
    let small: [(usize, usize, &[u16]); 9] = [
        (2, 2, &[0, 1, 2]),
        (3, 2, &[0, 1, 2]),
        (3, 3, &[0, 1, 2]),
        (3, 4, &[0, 1, 2]),
        (3, 5, &[0, 1, 2]),
        (3, 6, &[0, 1]),
        (4, 5, &[0, 1]),
        (4, 6, &[0, 1]),
        (4, 7, &[0, 1]),
    ];
    for (n, m, values) in small {
        for weights in lists(values, m) {
            (0..m as u64).for_each(|symbol| jobs(&mut cross, &mut random, n, &weights, symbol));
        }
    }
    cross.met(&[0, 6, 7]);
}

/// All orders of up to four cells, with weights of each kind.
#[test]
fn every_order_to_four_read() {
    let (mut cross, mut random) = (Cross::default(), Random::seeded(902));
    for ((n, m), (_, weights)) in uneven_codes().filter(|&(n, m)| n < 4 || n == 4 && m % 3 == 0).flat_map(|code| KINDS.map(|kind| (code, kind))) {
        let weights = weights(&mut random, m);
        for names in permutations(n) {
            let levels = random.levels(&names, CEILING);
            cross.read_uneven(&levels, &weights, m as u64);
        }
    }
    cross.met(&[0, 7]);
}

/// A symbol of each, with weights of any kind.
#[test]
fn codes_of_every_size() {
    let (mut cross, mut random) = (Cross::default(), Random::seeded(903));
    for (n, m) in uneven_codes() {
        let (_, weights) = random.pick(&KINDS);
        let weights = weights(&mut random, m);
        let symbol = random.below(m as u64);
        jobs(&mut cross, &mut random, n, &weights, symbol);
    }
    cross.met(&[0, 6, 7]);
}

/// Each kind of weights on five to eight cells, with 64 symbols: the first, the last and another.
#[test]
fn the_largest_codes() {
    let (mut cross, mut random) = (Cross::default(), Random::seeded(904));
    for (n, (_, weights)) in (5..=8).flat_map(|n| KINDS.map(|kind| (n, kind))) {
        let weights = weights(&mut random, 64);
        for symbol in [0, 63, random.below(64)] {
            cross.prefix_uneven(n, &weights, 64, symbol);
        }
        let levels = random.group_below(n, 60_000);
        store(&mut cross, &levels, &weights, 64, random.below(64));
    }
    cross.met(&[0]);
}

#[test]
fn every_symbol_of_the_largest_codes() {
    let (mut cross, mut random) = (Cross::default(), Random::seeded(905));
    for (n, (_, weights)) in [(5, ANY), (6, EQUAL), (8, SHRINKING)] {
        let weights = weights(&mut random, 64);
        (0..64).for_each(|symbol| cross.prefix_uneven(n, &weights, 64, symbol));
    }
    cross.met(&[0]);
}

/// Example 21: its prefixes, and all symbols on all orders. From [1,2,3,4] "we can shift cells 3, 4 to the top to change the state to [4,3,1,2]".
#[test]
fn the_example_of_document_001() {
    let (mut cross, mut random) = (Cross::default(), Random::seeded(906));
    assert_eq!(prefixes(4, &WEIGHTS), FIGURE);
    for (names, symbol) in permutations(4).iter().flat_map(|names| (0..9).map(move |symbol| (names, symbol))) {
        let levels = random.levels(names, 1000);
        store(&mut cross, &levels, &WEIGHTS, 9, symbol);
        cross.prefix_uneven(4, &WEIGHTS, 9, symbol);
    }
    let mut levels = [4, 3, 2, 1];
    assert_eq!((turretmedlar::store_uneven(&mut levels, &WEIGHTS, 9, 7), levels), (Ok(Spent { pushes: 2, charge: 3 + 5 }), [4, 3, 5, 6]));
    cross.met(&[0]);
}

/// Twelve settings on five cells, of which three come weekly and the others once a year: each of the three takes at most one push, whatever stands.
#[test]
fn settings_used_unevenly() {
    let (mut cross, mut random) = (Cross::default(), Random::seeded(907));
    let times = [1, 52, 1, 1, 1, 52, 1, 1, 1, 1, 1, 52];
    let lengths: Vec<usize> = prefixes(5, &times).iter().map(Vec::len).collect();
    assert_eq!(lengths, [2, 1, 2, 2, 2, 1, 2, 2, 2, 3, 3, 1]);
    let mut levels = random.group_below(5, 60_000);
    for _ in 0..100 {
        let any = random.below(12);
        let symbol = random.pick(&[1, 5, 11, any]);
        levels = store(&mut cross, &levels, &times, 12, symbol).expect("below the ceiling");
        for weekly in [1, 5, 11] {
            assert!(turretmedlar::store_uneven(&mut levels.clone(), &times, 12, weekly).expect("below the ceiling").pushes <= 1);
        }
    }
    cross.met(&[0]);
}

#[test]
fn stores_that_just_fit_below_the_ceiling_and_just_do_not() {
    let (mut cross, mut random) = (Cross::default(), Random::seeded(908));
    for (n, m) in uneven_codes().filter(|(_, m)| *m < 9 || m % 11 == 0) {
        for (_, weights) in [random.pick(&KINDS), random.pick(&KINDS)] {
            let (names, weights, symbol) = (random.names(n), weights(&mut random, m), random.below(m as u64));
            for top in tops(&names, |low| model::store_uneven(low, &weights, m as u64, symbol)) {
                let levels = random.levels(&names, top);
                store(&mut cross, &levels, &weights, m as u64, symbol);
            }
        }
    }
    cross.met(&[0, 6, 7]);
}

/// What stands needs no push, at the ceiling too.
#[test]
fn settings_that_stand() {
    let (mut cross, mut random) = (Cross::default(), Random::seeded(909));
    for (n, (_, weights)) in (2..=8).flat_map(|n| KINDS.map(|kind| (n, kind))) {
        let m = 2 + random.below(factorial(n).min(24) - 1);
        let (weights, symbol) = (weights(&mut random, m as usize), random.below(m));
        let names = random.names(n);
        let [top, _] = tops(&names, |low| model::store_uneven(low, &weights, m, symbol));
        let levels = random.levels(&names, top);
        let mut after = store(&mut cross, &levels, &weights, m, symbol).expect("just below the ceiling");
        assert_eq!(after.iter().max(), Some(&CEILING));
        assert_eq!(store(&mut cross, &after, &weights, m, symbol).as_ref(), Some(&after), "a second store");
        assert_eq!(turretmedlar::store_uneven(&mut after, &weights, m, symbol), Ok(Spent { pushes: 0, charge: 0 }));
    }
    cross.met(&[0]);
}

/// One cell just below the ceiling, the others at the bottom. Where all weights are 0 the lengths alone count, and so many symbols have them up to n - 1: the last symbol
/// pushes all these cells, which is the most that a store can spend.
#[test]
fn the_largest_totals() {
    let mut cross = Cross::default();
    for n in 2..=8_u16 {
        let mut levels: Vec<u16> = (0..n).rev().collect();
        levels[0] = CEILING - (n - 1);
        let m = 1 + n * (n - 1) / 2;
        let weights = vec![0; m.into()];
        (0..m.into()).for_each(|symbol| drop(store(&mut cross, &levels, &weights, m.into(), symbol)));
        let spent = turretmedlar::store_uneven(&mut levels, &weights, m.into(), u64::from(m) - 1).expect("just below the ceiling");
        assert_eq!(spent.pushes, u32::from(n) - 1);
    }
    cross.met(&[0]);
}

/// The two lists that are only read can be one: as many symbols as cells, each with the level of a cell as its weight.
#[test]
fn one_list_as_the_levels_and_the_weights() {
    let mut random = Random::seeded(910);
    for n in (2..=8).flat_map(|n| [n; 5]) {
        let levels = random.group(n);
        let expected = model::read_uneven(&levels, &levels, n as u64).expect("each cell is a prefix");
        assert_eq!(turretmedlar::read_uneven(&levels, &levels, n as u64), Ok(expected), "{levels:?}");
    }
}

/// Each store is read back, whatever stood before and under whatever weights that was stored.
#[test]
fn symbols_one_after_another_in_one_group() {
    let (mut cross, mut random) = (Cross::default(), Random::seeded(911));
    for n in 2..=8 {
        let mut levels = random.group_below(n, CEILING - 40);
        for _ in 0..60 {
            let m = 2 + random.below(factorial(n).min(16) - 1);
            let (_, weights) = random.pick(&KINDS);
            let weights = weights(&mut random, m as usize);
            levels = store(&mut cross, &levels, &weights, m, random.below(m)).unwrap_or(levels);
        }
    }
    cross.met(&[0, 6, 7]);
}

/// Of no entry up to many; m is the right number, or as many as there are.
#[test]
fn weight_lists_of_other_lengths() {
    let (mut cross, mut random) = (Cross::default(), Random::seeded(912));
    for (n, m) in [(2, 2), (3, 6), (4, 9), (8, 64)] {
        for entries in (0..=m + 2).chain([2 * m, 65, 66, 128, 256 + m, 65_536 + m]) {
            let (_, weights) = random.pick(&KINDS);
            let weights = weights(&mut random, entries);
            let levels = random.group(n);
            for m in [m, entries] {
                cross.prefix_uneven(n, &weights, m as u64, 0);
                cross.store_uneven(&levels, &weights, m as u64, 1);
                cross.read_uneven(&levels, &weights, m as u64);
            }
        }
    }
    cross.met(&[0, 2, 5, 6, 7]);
}

/// Numbers of symbols in the range, at its ends and past all; some have low bits that would be taken.
const SYMBOLS: [u64; 18] = [0, 1, 2, 3, 6, 7, 24, 25, 63, 64, 65, 66, 256, 258, 1 << 32, 1 << 32 | 2, 1 << 63 | 2, u64::MAX];

/// Right and wrong numbers of cells and of symbols; as many weights, or as the low bits say, one too few or too many; with a tie and without; below the ceiling and at
/// it.
#[test]
fn several_reasons_against_a_store() {
    let (mut cross, mut random) = (Cross::default(), Random::seeded(913));
    for (n, m) in (0..=12).flat_map(|n| SYMBOLS.map(|m| (n, m))) {
        let names = random.names(n);
        let right = (m as u32).min(300) as usize;
        for entries in [right, right.saturating_sub(1), right + 1] {
            let (_, weights) = random.pick(&KINDS);
            let weights = weights(&mut random, entries);
            for (top, tie) in [(CEILING, false), (CEILING, true), (300, false), (300, true)] {
                let levels = levels_or_tie(&mut random, &names, top, tie);
                let symbol = random.pick(&[0, 1, m.wrapping_sub(1), m, m ^ 1 << 32, u64::MAX]);
                cross.prefix_uneven(n, &weights, m, symbol);
                store(&mut cross, &levels, &weights, m, symbol);
            }
        }
    }
    cross.met(&[0, 1, 2, 4, 5, 6, 7]);
}

/// Every symbol about m, and far ones.
#[test]
fn symbols_past_the_code() {
    let (mut cross, mut random) = (Cross::default(), Random::seeded(914));
    for (n, m) in [(2, 2), (3, 4), (4, 24), (6, 13), (8, 31)] {
        let (weights, levels) = (vec![3; m as usize], random.group_below(n, 1000));
        for symbol in (0..=m + 2).chain([64, 255, 256, 1 << 32, 1 << 32 | 1, m ^ 1 << 63, u64::MAX - 1, u64::MAX]) {
            cross.prefix_uneven(n, &weights, m, symbol);
            cross.store_uneven(&levels, &weights, m, symbol);
        }
    }
    cross.met(&[0, 5]);
}

/// Cells that no uneven code has, though most of them a group: the prefix asks for a number, the jobs on levels for a list.
#[test]
fn other_numbers_of_cells() {
    let (mut cross, mut random) = (Cross::default(), Random::seeded(915));
    for n in (9..=20).chain(WRONG_SIZES) {
        cross.prefix_uneven(n, &WEIGHTS, 9, 0);
        cross.prefix_uneven(n, &WEIGHTS, 10, 9);
        assert_eq!(turretmedlar::prefix_uneven(n, &WEIGHTS, 9, 0), Err(Reason::Size));
    }
    for n in (0..=1).chain(9..=22) {
        let levels: Vec<u16> = random.names(n).into_iter().map(u16::from).collect();
        store(&mut cross, &levels, &WEIGHTS, 9, 0);
        store(&mut cross, &vec![CEILING; n], &WEIGHTS, 10, 9);
    }
    cross.met(&[1]);
}
