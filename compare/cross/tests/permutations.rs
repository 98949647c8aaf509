//! Jobs on permutations: push, successor, digits, rank and unrank, and damaged records in every job that takes one.
use cross::cases::{factorial, falling, pairs, permutations, places, record, WRONG_SIZES};
use cross::{Cross, Random};
use turretmedlar::{digits, push, rank, raw, successor, unrank, NextStep, Permutation};

#[test]
fn every_permutation_to_six_at_every_place() {
    let mut cross = Cross::default();
    for names in (2..=6).flat_map(permutations) {
        places(names.len()).for_each(|place| cross.jobs_on_record(record(&names), place));
    }
    cross.met(&[0, 5]);
}

#[test]
fn random_permutations_of_seven_to_twenty_at_every_place() {
    let (mut cross, mut random) = (Cross::default(), Random::seeded(101));
    for n in (7..=20).flat_map(|n| [n; 60]) {
        let permutation = record(&random.names(n));
        places(n).for_each(|place| cross.jobs_on_record(permutation, place));
    }
    cross.met(&[0, 5]);
}

#[test]
fn every_rank_to_six_and_those_past_the_last() {
    let mut cross = Cross::default();
    for n in 2..=6 {
        (0..=factorial(n) + 1).chain([u64::MAX]).for_each(|rank| cross.unrank(n, rank));
    }
    cross.met(&[0, 5]);
}

#[test]
fn first_last_and_random_ranks_of_every_size() {
    let (mut cross, mut random) = (Cross::default(), Random::seeded(102));
    for n in 2..=20 {
        let count = factorial(n);
        let ends = (0..40).chain(count.saturating_sub(40)..count + 40).chain([1 << 32, 1 << 63, u64::MAX]);
        ends.for_each(|rank| cross.unrank(n, rank));
        (0..1000).for_each(|_| cross.unrank(n, random.below(count)));
    }
    cross.met(&[0, 5]);
}

#[test]
fn ranks_of_wrong_sizes() {
    let mut cross = Cross::default();
    for n in WRONG_SIZES {
        [0, 1, 2, factorial(20), u64::MAX].into_iter().for_each(|rank| cross.unrank(n, rank));
    }
    cross.met(&[1]);
}

/// Document 02, request 10: each weight that a rank can have, of each size, by itself, where one digit is not 0, and all of them, where every digit is its largest.
/// The last digit is always 0.
#[test]
fn each_weight_by_itself_and_all() {
    let mut cross = Cross::default();
    for n in 2..=20 {
        for (i, digit) in (0..n - 1).flat_map(|i| (1..n - i).map(move |digit| (i, digit))) {
            let expected = digit as u64 * falling(n, i);
            let permutation = unrank(n, expected).expect("a rank");
            let mut row = [0; 20];
            row[i] = digit as u8;
            assert_eq!((digits(permutation), rank(permutation)), (Ok(row), Ok(expected)), "{permutation:?}");
            cross.rank(permutation);
        }
        cross.rank(unrank(n, factorial(n) - 1).expect("a rank"));
    }
    cross.met(&[0]);
}

#[test]
fn steps_from_each_permutation_to_the_next() {
    let (mut cross, mut random) = (Cross::default(), Random::seeded(103));
    for n in 2..=20 {
        let mut permutation = record(&random.names(n));
        for _ in 0..1500 {
            cross.rank(permutation);
            cross.successor(permutation);
            let place = successor(permutation).expect("a permutation").place;
            cross.push(permutation, place);
            permutation = push(permutation, place).expect("a place");
        }
    }
    cross.met(&[0]);
}

/// Document 02, request 9, of document 01's steps and of two cells: each a permutation, the place, the tests and the size.
#[test]
fn how_the_steps_of_document_01_are_chosen() {
    let table: [(&[u8], usize, usize, usize); 5] =
        [(&[4, 2, 3, 1], 2, 2, 3), (&[4, 1, 2, 3], 3, 2, 2), (&[4, 2, 1, 3], 3, 2, 2), (&[1, 2], 2, 0, 2), (&[2, 1], 2, 0, 2)];
    for (names, place, tests, size) in table {
        assert_eq!(successor(record(names)), Ok(NextStep { place, tests, size }), "{names:?}");
    }
}

#[test]
fn every_next_step_to_eight() {
    let mut cross = Cross::default();
    (2..=8).flat_map(permutations).for_each(|names| cross.successor(record(&names)));
    cross.met(&[0]);
}

/// Random permutations have their largest cell on top too seldom for this. A group whose largest is not, or one of two, is grown: each next cell comes on top of
/// the others in reverse, so that the answer falls at the size that it had.
#[test]
fn an_answer_at_each_size_of_every_group() {
    let (mut cross, mut random) = (Cross::default(), Random::seeded(108));
    for (n, size) in (2..=20).flat_map(|n| (2..=n).flat_map(move |size| [(n, size); 20])) {
        let mut names = random.names(size);
        if size > 2 && usize::from(names[0]) == size {
            names.rotate_left(1);
        }
        for cell in size + 1..=n {
            names.push(cell as u8);
            names.reverse();
        }
        cross.successor(record(&names));
        let tests = if size == 2 { n - 2 } else { n - size + 1 };
        assert_eq!(successor(record(&names)).map(|step| (step.tests, step.size)), Ok((tests, size)), "{names:?}");
    }
    cross.met(&[0]);
}

/// "Summed over a whole round of n! steps from any order, they are the sum of i! for i from 3 to n: 6 for three cells, 30 for four." The library alone, from
/// the first rank, the last and random permutations.
#[test]
fn the_tests_of_a_whole_round() {
    let mut random = Random::seeded(109);
    for (n, total) in (2..).zip([0, 6, 30, 150, 870, 5_910]) {
        let round = factorial(n);
        assert_eq!((3..=n).map(factorial).sum::<u64>(), total);
        let ends = [0, round - 1].map(|rank| turretmedlar::unrank(n, rank).expect("a rank"));
        for start in ends.into_iter().chain((0..6).map(|_| record(&random.names(n)))) {
            let (mut here, mut tests) = (start, 0);
            for _ in 0..round {
                let step = successor(here).expect("a permutation");
                tests += step.tests as u64;
                here = push(here, step.place).expect("a place");
            }
            assert_eq!((here, tests), (start, total), "{n} cells");
        }
    }
}

/// Damaged records are compared with the model below; here all that crosses is held to be zeros.
#[test]
fn a_refused_next_step_is_zeros() {
    let zeros = |number| raw::Placed { number, place: 0, tests: 0, size: 0 };
    let rising = record(&(1..=20).collect::<Vec<u8>>());
    for n in WRONG_SIZES {
        assert_eq!(raw::successor(Permutation { n, ..rising }), zeros(1), "{n}");
    }
    for n in 2..20 {
        assert_eq!(raw::successor(Permutation { n, ..rising }), zeros(3), "{n}");
        assert_eq!(raw::successor(Permutation { n: n + 1, ..record(&rising.cells[..n]) }), zeros(3), "{n}");
    }
}

#[test]
fn each_byte_of_a_record_set_to_every_value() {
    let (mut cross, mut random) = (Cross::default(), Random::seeded(104));
    for n in 2..=20 {
        let permutation = record(&random.names(n));
        for (at, value) in pairs(20, 256) {
            let mut damaged = permutation;
            damaged.cells[at] = value as u8;
            cross.jobs_on_record(damaged, 2);
        }
    }
    cross.met(&[0, 3]);
}

#[test]
fn several_bytes_of_a_record_damaged() {
    let (mut cross, mut random) = (Cross::default(), Random::seeded(105));
    for n in (2..=20).flat_map(|n| [n; 1000]) {
        let mut damaged = record(&random.names(n));
        damaged.cells.swap(random.index(20), random.index(20));
        damaged.cells[random.index(20)] = random.below(22) as u8;
        cross.jobs_on_record(damaged, random.index(n + 2));
    }
    cross.met(&[0, 3, 5]);
}

#[test]
fn n_of_a_record_set_to_other_numbers() {
    let (mut cross, mut random) = (Cross::default(), Random::seeded(106));
    for n in 2..=20 {
        let permutation = record(&random.names(n));
        for other in (0..=25).chain(WRONG_SIZES).chain([256 + n, 1 << 32 | n]) {
            places(n).for_each(|place| cross.jobs_on_record(Permutation { n: other, ..permutation }, place));
        }
    }
    cross.met(&[0, 1, 3, 5]);
}

#[test]
fn records_of_random_bytes() {
    let (mut cross, mut random) = (Cross::default(), Random::seeded(107));
    for _ in 0..8000 {
        let bound = random.pick(&[1, 3, 21, 256]);
        let cells = std::array::from_fn(|_| random.below(bound) as u8);
        cross.jobs_on_record(Permutation { n: random.index(23), cells }, random.index(22));
    }
    cross.met(&[1, 3]);
}
