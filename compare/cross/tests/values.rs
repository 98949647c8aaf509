//! Values on a zero, old, new or neither, and the permutations of values.
use cross::cases::{factorial, lists, permutations, record, WRONG_SIZES};
use cross::{Cross, Random};
use turretmedlar::{permutation_of_value, push, rank, read, successor, value, Permutation, Zero};

/// Old, new and two that are neither.
const ZEROS: [u8; 4] = [0, 1, 2, 255];

/// [1, 2, ..., n].
fn rising(n: usize) -> Permutation {
    record(&(1..=n as u8).collect::<Vec<u8>>())
}

/// "[1,2,3,4] is 10 on the old and 0 on the new, and [1,3,2] is 0 and 2."
#[test]
fn the_examples_of_document_02() {
    for (names, old, new) in [(&[1, 2, 3, 4][..], 10, 0), (&[1, 3, 2], 0, 2)] {
        let order = record(names);
        assert_eq!([value(order, Zero::Old), value(order, Zero::New)], [Ok(old), Ok(new)]);
        assert_eq!([permutation_of_value(names.len(), old, Zero::Old), permutation_of_value(names.len(), new, Zero::New)], [Ok(order); 2]);
    }
}

#[test]
fn every_permutation_to_six() {
    let mut cross = Cross::default();
    for names in (2..=6).flat_map(permutations) {
        ZEROS.into_iter().for_each(|zero| cross.value(record(&names), zero));
    }
    cross.met(&[0, 5]);
}

#[test]
fn random_permutations_of_every_size() {
    let (mut cross, mut random) = (Cross::default(), Random::seeded(701));
    for n in (2..=20).flat_map(|n| [n; 100]) {
        let permutation = record(&random.names(n));
        ZEROS.into_iter().for_each(|zero| cross.value(permutation, zero));
    }
    cross.met(&[0, 5]);
}

#[test]
fn every_value_to_six_and_those_past_the_last() {
    let mut cross = Cross::default();
    for n in 2..=6 {
        for value in (0..=factorial(n) + 1).chain([u64::MAX]) {
            ZEROS.into_iter().for_each(|zero| cross.permutation_of_value(n, value, zero));
        }
    }
    cross.met(&[0, 5]);
}

/// About 0, about the zeros' own ranks and what is left of a round from there, about n!, and where 64 bits end.
#[test]
fn values_about_their_ends_and_random_ones() {
    let (mut cross, mut random) = (Cross::default(), Random::seeded(702));
    for n in 2..=20 {
        let (round, new) = (factorial(n), rank(rising(n)).expect("a permutation"));
        let about = |value: u64| value.saturating_sub(20)..value.saturating_add(20);
        let ends = [0, new, round - new, round, round + new, 2 * round, u64::MAX - new].into_iter().flat_map(about).chain([1 << 32, 1 << 63, u64::MAX]);
        let values: Vec<u64> = ends.chain((0..100).map(|_| random.below(round))).collect();
        for &value in &values {
            ZEROS.into_iter().for_each(|zero| cross.permutation_of_value(n, value, zero));
        }
    }
    cross.met(&[0, 5]);
}

/// "Each value from 0 to n! - 1 belongs to exactly one order of n cells": there and back, both ways, through the library alone.
#[test]
fn there_and_back() {
    let mut random = Random::seeded(703);
    for (n, zero) in (2..=20).flat_map(|n| [(n, Zero::Old), (n, Zero::New)]) {
        let (round, order) = (factorial(n), record(&random.names(n)));
        let all = 0..round.min(720);
        for number in all.chain(round.saturating_sub(300)..round).chain((0..300).map(|_| random.below(round))) {
            let permutation = permutation_of_value(n, number, zero).expect("a value");
            assert_eq!(value(permutation, zero), Ok(number), "{n} {zero:?}");
        }
        for permutation in (0..300).map(|_| record(&random.names(n))).chain([rising(n), order]) {
            let number = value(permutation, zero).expect("a permutation");
            assert_eq!(permutation_of_value(n, number, zero), Ok(permutation), "{n} {zero:?}");
            assert!(number < round && (zero == Zero::New || rank(permutation) == Ok(number)));
        }
    }
}

/// "Any k steps add k to the value modulo n!": on permutations, across the end of the round.
#[test]
fn steps_add_to_the_value() {
    let mut random = Random::seeded(704);
    for (n, zero) in (2..=20).flat_map(|n| [(n, Zero::Old), (n, Zero::New)]) {
        let round = factorial(n);
        for start in [0, round - 1, round.saturating_sub(500), random.below(round)] {
            let mut here = permutation_of_value(n, start, zero).expect("a value");
            for k in 0..1000 {
                assert_eq!(value(here, zero), Ok((start + k) % round), "{k} steps from {start} of {n} cells, {zero:?}");
                here = successor(here).and_then(|step| push(here, step.place)).expect("a permutation");
            }
        }
    }
}

/// The same on levels: what a call counts is added, what it refuses is not.
#[test]
fn calls_add_to_the_value() {
    let mut random = Random::seeded(705);
    for (n, zero) in (2..=20).flat_map(|n| [(n, Zero::Old), (n, Zero::New)]) {
        let mut levels = random.group_below(n, 60_000);
        let mut expected = value(read(&levels).expect("levels"), zero).expect("a permutation");
        for k in [0, 1, 5, 997, 6000, 2, u32::MAX] {
            let counted = turretmedlar::count_up(&mut levels, k).map_or(0, |spent| u64::from(spent.pushes));
            expected = (expected + counted) % factorial(n);
            assert_eq!(read(&levels).and_then(|here| value(here, zero)), Ok(expected), "{k} on {n} cells, {zero:?}");
        }
    }
}

#[test]
fn every_number_of_a_zero_with_right_and_wrong_records() {
    let (mut cross, mut random) = (Cross::default(), Random::seeded(706));
    let right = record(&random.names(20));
    let sizes = WRONG_SIZES.map(|n| Permutation { n, ..right });
    let short = lists(&[0, 1, 2, 3], 3).into_iter().map(|names| Permutation { n: 2, ..record(&names) });
    let random_bytes: Vec<Permutation> = (0..60).map(|_| Permutation { n: random.index(23), cells: std::array::from_fn(|_| random.below(22) as u8) }).collect();
    for permutation in [right, record(&[2, 1])].into_iter().chain(sizes).chain(short).chain(random_bytes) {
        (0..=255).for_each(|zero| cross.value(permutation, zero));
    }
    cross.met(&[0, 1, 3, 5]);
}

#[test]
fn every_number_of_a_zero_with_right_and_wrong_values() {
    let mut cross = Cross::default();
    for n in [2, 3, 19, 20].into_iter().chain(WRONG_SIZES) {
        for value in [0, 1, 2, 5, 6, factorial(20) - 1, factorial(20), 1 << 63, u64::MAX] {
            (0..=255).for_each(|zero| cross.permutation_of_value(n, value, zero));
        }
    }
    cross.met(&[0, 1, 5]);
}
