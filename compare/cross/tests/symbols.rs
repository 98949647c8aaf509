//! Rewriting, and storing and reading a symbol.
use cross::cases::{factorial, falling, levels_or_tie, pairs, permutations, record, scales, tops, CEILING};
use cross::{fill, twin, Cross, Random};
use turretmedlar::{Permutation, Spent};

/// Rewrites, and where that is done reads the target back.
fn rewrite(cross: &mut Cross, levels: &[u16], target: Permutation, room: usize) {
    if let Some(after) = cross.rewrite(levels, target, &fill(room)) {
        assert_eq!(turretmedlar::read(&after), Ok(target), "after the rewrite of {levels:?}");
    }
}

/// Stores, and where that is done reads the symbol back; else reads what stands.
fn store(cross: &mut Cross, levels: &[u16], m: u64, symbol: u64) -> Option<Vec<u16>> {
    let after = cross.store(levels, m, symbol);
    cross.read_symbol(after.as_deref().unwrap_or(levels), m);
    if let Some(after) = &after {
        assert_eq!(turretmedlar::read_symbol(after, m), Ok(symbol), "after the store in {levels:?}");
    }
    after
}

/// A record that is no permutation, by one of the ways to muddle one.
fn muddled(random: &mut Random, mut target: Permutation) -> Permutation {
    let n = target.n.clamp(2, 20);
    let place = random.index(n);
    let past = if n < 20 { n + random.index(20 - n) } else { place };
    let (at, value) = random.pick(&[(place, 0), (place, n as u8 + 1), (place, target.cells[(place + 1) % n]), (past, 255), (n - 1, 128)]);
    target.cells[at] = value;
    target
}

fn every_pair(cross: &mut Cross, n: usize, rooms: impl Iterator<Item = usize> + Clone) {
    let mut random = Random::seeded(300 + n as u64);
    for start in permutations(n) {
        let levels = random.levels(&start, 1000);
        for target in permutations(n) {
            rooms.clone().for_each(|room| rewrite(cross, &levels, record(&target), room));
        }
    }
}

#[test]
fn every_pair_to_four_rewritten_with_push_lists_of_every_length() {
    let mut cross = Cross::default();
    (2..=4).for_each(|n| every_pair(&mut cross, n, 0..=n + 3));
    cross.met(&[0, 2]);
}

#[test]
fn every_pair_of_five_and_of_six_rewritten() {
    let mut cross = Cross::default();
    (5..=6).for_each(|n| every_pair(&mut cross, n, n - 1..=n - 1));
    cross.met(&[0]);
}

#[test]
fn random_pairs_rewritten_with_push_lists_of_every_length() {
    let (mut cross, mut random) = (Cross::default(), Random::seeded(311));
    for n in (2..=20).flat_map(|n| [n; 40]) {
        let levels = random.group(n);
        let target = record(&random.names(n));
        (0..=n + 3).chain([255, 256, 300]).for_each(|room| rewrite(&mut cross, &levels, target, room));
    }
    cross.met(&[0, 2, 6]);
}

#[test]
fn targets_that_need_each_number_of_pushes() {
    let (mut cross, mut random) = (Cross::default(), Random::seeded(312));
    for n in 2..=20 {
        for r in (0..n).flat_map(|r| [r; 8]) {
            let mut names = random.names(n);
            let top = CEILING - random.below(n as u64 + 1) as u16;
            let levels = random.levels(&names, top);
            let mut low = random.levels(&names, 1000);
            names[..=r].rotate_left(1);
            names[..r].reverse();
            let spent = model::rewrite(&mut low, &twin(record(&names)), &mut [0; 20]);
            assert_eq!(spent.map(|spent| spent.pushes), Ok(r as u32), "the pushes to {names:?}");
            rewrite(&mut cross, &levels, record(&names), n - 1);
        }
    }
    cross.met(&[0, 6]);
}

/// One cell just below the ceiling, the others at the bottom, each of which is pushed: the largest totals of a rewrite and of a store.
#[test]
fn the_largest_totals() {
    let mut cross = Cross::default();
    for n in 2..=20 {
        let names: Vec<u8> = (1..=n as u8).collect();
        let reversed: Vec<u8> = (1..=n as u8).rev().collect();
        let mut levels: Vec<u16> = (0..n as u16).rev().collect();
        levels[0] = CEILING - (n as u16 - 1);
        assert_eq!(turretmedlar::read(&levels), Ok(record(&names)));
        rewrite(&mut cross, &levels, record(&reversed), n - 1);
        store(&mut cross, &levels, factorial(n), factorial(n) - 1);
    }
    cross.met(&[0]);
}

/// One group and one target, good or not in each respect.
fn rewrite_in_each_respect(cross: &mut Cross, random: &mut Random, n: usize, target: Permutation) {
    let names = random.names(n);
    let tops = tops(&names, |low| model::rewrite(low, &twin(target), &mut [0; 25]));
    for room in [0, n.saturating_sub(2), n.saturating_sub(1), n, 25] {
        for target in [target, muddled(random, target)] {
            for (top, tie) in tops.into_iter().flat_map(|top| [(top, false), (top, true)]) {
                let levels = levels_or_tie(random, &names, top, tie);
                cross.rewrite(&levels, target, &fill(room));
            }
        }
    }
}

#[test]
fn several_reasons_against_a_rewrite() {
    let (mut cross, mut random) = (Cross::default(), Random::seeded(313));
    for (n, target_n) in pairs(23, 23) {
        for _ in 0..if n == target_n { 20 } else { 1 } {
            let names = random.names(target_n.min(20));
            rewrite_in_each_respect(&mut cross, &mut random, n, Permutation { n: target_n, ..record(&names) });
        }
    }
    cross.met(&[0, 1, 2, 3, 4, 6]);
}

#[test]
fn every_symbol_of_every_code_to_four_cells() {
    let (mut cross, mut random) = (Cross::default(), Random::seeded(321));
    for names in (2..=4).flat_map(permutations) {
        for m in 0..=factorial(names.len()) + 2 {
            for symbol in (0..=m + 1).chain([u64::MAX]) {
                let top = CEILING - random.pick(&[500, 4, 3, 2, 1, 0]);
                let levels = random.levels(&names, top);
                store(&mut cross, &levels, m, symbol);
            }
        }
    }
    cross.met(&[0, 5, 6, 7]);
}

#[test]
fn every_permutation_of_five_read_in_every_code() {
    let (mut cross, mut random) = (Cross::default(), Random::seeded(322));
    for names in permutations(5) {
        let levels = random.levels(&names, CEILING);
        (0..=factorial(5) + 2).for_each(|m| cross.read_symbol(&levels, m));
    }
    cross.met(&[0, 5, 7]);
}

#[test]
fn codes_on_every_scale() {
    let (mut cross, mut random) = (Cross::default(), Random::seeded(323));
    for n in (5..=20).flat_map(|n| [n; 3]) {
        let codes: Vec<u64> = scales(n).into_iter().flat_map(|m| [m, 1 + random.below(m)]).collect();
        for m in codes {
            let any = random.below(m);
            for symbol in [0, m.wrapping_sub(1), m, any, any ^ 1 << 32, u64::MAX] {
                let levels = random.group(n);
                store(&mut cross, &levels, m, symbol);
            }
        }
    }
    cross.met(&[0, 5, 6, 7]);
}

#[test]
fn stores_that_just_fit_below_the_ceiling_and_just_do_not() {
    let (mut cross, mut random) = (Cross::default(), Random::seeded(324));
    for n in (2..=20).flat_map(|n| [n; 12]) {
        for m in scales(n).into_iter().filter(|m| (1..=factorial(n)).contains(m)) {
            let names = random.names(n);
            let symbol = random.below(m);
            for top in tops(&names, |low| model::store(low, m, symbol)) {
                let levels = random.levels(&names, top);
                store(&mut cross, &levels, m, symbol);
            }
        }
    }
    cross.met(&[0, 6, 7]);
}

/// The first r cells of the prefix on top are put anywhere: no more than r pushes bring it back, and a second store, at the ceiling, needs none.
#[test]
fn settings_that_stand_and_that_stand_in_part() {
    let (mut cross, mut random) = (Cross::default(), Random::seeded(327));
    for (n, p) in (2..=20).flat_map(|n| (0..n).flat_map(move |p| [(n, p); 12])) {
        let mut names = random.names(n);
        let m = falling(n, p);
        let symbol = model::read_symbol(&random.levels(&names, 1000), m).unwrap();
        let r = random.index(p + 1);
        let taken: Vec<u8> = names.drain(..r).collect();
        taken.into_iter().for_each(|cell| names.insert(random.index(names.len() + 1), cell));
        assert!(model::store(&mut random.levels(&names, 1000), m, symbol).unwrap().pushes <= r as u32, "the pushes on {names:?}");
        let levels = tops(&names, |low| model::store(low, m, symbol)).map(|top| random.levels(&names, top));
        let mut after = store(&mut cross, &levels[0], m, symbol).unwrap();
        assert_eq!(after.iter().max(), Some(&CEILING));
        assert_eq!(store(&mut cross, &after, m, symbol).as_ref(), Some(&after), "a second store");
        assert_eq!(turretmedlar::store(&mut after, m, symbol), Ok(Spent { pushes: 0, charge: 0 }), "what a second store spends");
        store(&mut cross, &levels[1], m, symbol);
    }
    cross.met(&[0, 6]);
}

#[test]
fn several_reasons_against_a_store() {
    let (mut cross, mut random) = (Cross::default(), Random::seeded(325));
    for n in 0..=22 {
        let names = random.names(n);
        let count = factorial(n.min(20));
        for m in [0, 1, 2, count, count + 1, u64::MAX] {
            for symbol in [0, 1, m.wrapping_sub(1), m, u64::MAX] {
                for (top, tie) in [(CEILING, false), (CEILING, true), (300, false), (300, true)] {
                    let levels = levels_or_tie(&mut random, &names, top, tie);
                    store(&mut cross, &levels, m, symbol);
                }
            }
        }
    }
    cross.met(&[0, 1, 4, 5, 6, 7]);
}

#[test]
fn symbols_one_after_another_in_one_group() {
    let (mut cross, mut random) = (Cross::default(), Random::seeded(326));
    for n in 2..=20 {
        let mut levels = random.group_below(n, CEILING - 500);
        for _ in 0..100 {
            let p = random.index(n + 1);
            let m = 1 + random.below(falling(n, p));
            levels = store(&mut cross, &levels, m, random.below(m)).unwrap_or(levels);
        }
    }
    cross.met(&[0, 6, 7]);
}
