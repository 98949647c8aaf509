//! Several cells to a level: the cost of changing one arrangement into another, the raised levels, and refusals.
use cross::cases::{arrangements, lists, pairs, record, shapes};
use cross::{fill, Cross, Random};
use turretmedlar::rewrite;

/// q and z.
type Shape = (usize, usize);

/// Two lists as the old and the new arrangement, in either sequence, with a list that fits.
fn both_ways(cross: &mut Cross, shape: Shape, one: &[u8], other: &[u8]) {
    let list = fill(shape.0 * shape.1);
    cross.rearrange(shape, one, other, &list);
    cross.rearrange(shape, other, one, &list);
}

/// "Cells only rise", "and after it every cell of a lower new level must be strictly below every cell of a higher one."
fn is_raise(old: &[u8], new: &[u8], raised: &[u8]) -> bool {
    let apart = |(one, other): (usize, usize)| new[one] >= new[other] || raised[one] < raised[other];
    raised.iter().zip(old).all(|(raised, old)| raised >= old) && pairs(new.len(), new.len()).all(apart)
}

/// The library alone: the cost, and levels that are a raise of it, each the new one plus the cost.
fn cost(shape: Shape, old: &[u8], new: &[u8]) -> u8 {
    let mut raised = fill(new.len());
    let cost = turretmedlar::rearrange(shape.0, shape.1, old, new, &mut raised).expect("two arrangements");
    assert!(is_raise(old, new, &raised), "{old:?} {new:?}");
    assert!(raised.iter().zip(new).all(|(raised, new)| *raised == new + cost), "{old:?} {new:?}");
    assert_eq!(raised.iter().max(), Some(&(shape.0 as u8 + cost)));
    cost
}

/// The same with another level, or with none that an arrangement has, in one cell: never an arrangement.
fn damaged(random: &mut Random, q: usize, levels: &[u8], cell: usize) -> Vec<u8> {
    let mut damaged = levels.to_vec();
    let other = (damaged[cell] as usize + random.index(q - 1)) % q + 1;
    damaged[cell] = random.pick(&[other, other, 0, q + 1, 2 * q, 128, 255]) as u8;
    damaged
}

#[test]
fn every_pair_of_small_arrangements() {
    let mut cross = Cross::default();
    for (q, z) in [(2, 1), (3, 1), (4, 1), (2, 2), (2, 3), (3, 2)] {
        let all = arrangements(q, z);
        for (one, other) in pairs(all.len(), all.len()).filter(|(one, other)| one <= other) {
            both_ways(&mut cross, (q, z), &all[one], &all[other]);
        }
    }
    cross.met(&[0]);
}

/// Document 000: its example 2, the one of section IV-A, and section II-B's, where nothing changes.
#[test]
fn the_examples_of_document_000() {
    let mut cross = Cross::default();
    let table: [(Shape, &[u8], &[u8], u8); 3] = [
        ((3, 2), &[2, 3, 1, 2, 3, 1], &[1, 1, 2, 2, 3, 3], 2),
        ((3, 2), &[1, 2, 1, 3, 2, 3], &[2, 1, 3, 2, 1, 3], 1),
        ((2, 2), &[1, 2, 1, 2], &[1, 2, 1, 2], 0),
    ];
    for (shape, old, new, expected) in table {
        assert_eq!(cost(shape, old, new), expected);
        both_ways(&mut cross, shape, old, new);
    }
    cross.met(&[0]);
}

/// Any two, and two that differ by few exchanges.
#[test]
fn random_pairs_of_every_size() {
    let (mut cross, mut random) = (Cross::default(), Random::seeded(801));
    for (q, z) in shapes().flat_map(|shape| [shape; 6]) {
        let (one, other) = (random.arrangement(q, z), random.arrangement(q, z));
        let mut near = one.clone();
        (0..random.index(4)).for_each(|_| near.swap(random.index(q * z), random.index(q * z)));
        both_ways(&mut cross, (q, z), &one, &other);
        both_ways(&mut cross, (q, z), &one, &near);
        cost((q, z), &one, &other);
    }
    cross.met(&[0]);
}

/// Two cells exchange their levels, of which one is so much higher; and all levels fall by so much, with those that then would be below 1 on top.
#[test]
fn every_cost_of_every_size() {
    let (mut cross, mut random) = (Cross::default(), Random::seeded(802));
    for ((q, z), fall) in shapes().flat_map(|(q, z)| (0..q).map(move |fall| ((q, z), fall))) {
        let old = random.arrangement(q, z);
        let turned: Vec<u8> = old.iter().map(|&level| ((usize::from(level) - 1 + q - fall) % q + 1) as u8).collect();
        let lower = 1 + random.index(q - fall);
        let [low, high] = [lower, lower + fall].map(|level| old.iter().position(|&other| usize::from(other) == level).expect("a cell of each level"));
        let mut swapped = old.clone();
        swapped.swap(low, high);
        for new in [&turned, &swapped] {
            assert_eq!(usize::from(cost((q, z), &old, new)), fall, "{old:?} {new:?}");
            both_ways(&mut cross, (q, z), &old, new);
        }
    }
    cross.met(&[0]);
}

/// The two lists that are only read can be one.
#[test]
fn one_list_as_the_old_and_the_new() {
    let mut random = Random::seeded(803);
    for (q, z) in shapes() {
        let levels = random.arrangement(q, z);
        assert_eq!(cost((q, z), &levels, &levels), 0, "{levels:?}");
    }
}

/// The arrangement of a permutation, with one cell to a level: its names from the highest to the lowest have the levels n to 1.
fn levels_of(names: &[u8]) -> Vec<u8> {
    let mut levels = vec![0; names.len()];
    (1..).zip(names.iter().rev()).for_each(|(level, &name)| levels[usize::from(name) - 1] = level);
    levels
}

/// The cost from one permutation to another, and the pushes of a rewrite, which leave a raise too.
fn cost_and_pushes(cross: &mut Cross, old: &[u8], new: &[u8]) -> (u8, u8) {
    let (n, before, after) = (old.len(), levels_of(old), levels_of(new));
    both_ways(cross, (n, 1), &before, &after);
    let mut pushed: Vec<u16> = before.iter().map(|&level| level.into()).collect();
    let pushes = rewrite(&mut pushed, record(new), &mut [0; 20]).expect("a target").pushes as u8;
    let pushed: Vec<u8> = pushed.into_iter().map(|level| level as u8).collect();
    assert!(is_raise(&before, &after, &pushed) && pushed.iter().max() == Some(&(n as u8 + pushes)), "{old:?} {new:?}");
    (cost((n, 1), &before, &after), pushes)
}

/// The cost is never above the pushes. It is equal where the top goes to the bottom, and 1 where the two lowest change places, though all but one are pushed.
#[test]
fn one_cell_to_a_level_beside_rewriting() {
    let (mut cross, mut random) = (Cross::default(), Random::seeded(804));
    for n in 2..=16 {
        let names = random.names(n);
        let (mut turned, mut swapped) = (names.clone(), names.clone());
        turned.rotate_left(1);
        swapped.swap(n - 1, n - 2);
        let most = n as u8 - 1;
        assert_eq!(cost_and_pushes(&mut cross, &names, &turned), (most, most), "{names:?}");
        assert_eq!(cost_and_pushes(&mut cross, &names, &swapped), (1, most), "{names:?}");
        for _ in 0..30 {
            let (old, new) = (random.names(n), random.names(n));
            let (cost, pushes) = cost_and_pushes(&mut cross, &old, &new);
            assert!(cost <= pushes, "{old:?} {new:?}");
        }
    }
    cross.met(&[0]);
}

#[test]
fn each_cell_set_to_every_value() {
    let (mut cross, mut random) = (Cross::default(), Random::seeded(805));
    for (q, z) in [(2, 1), (2, 2), (3, 2), (16, 1)] {
        let (levels, other) = (random.arrangement(q, z), random.arrangement(q, z));
        for (cell, value) in pairs(q * z, 256) {
            let mut damaged = levels.clone();
            damaged[cell] = value as u8;
            both_ways(&mut cross, (q, z), &damaged, &other);
        }
    }
    cross.met(&[0, 3]);
}

#[test]
fn each_cell_of_every_size_damaged() {
    let (mut cross, mut random) = (Cross::default(), Random::seeded(806));
    for (q, z) in shapes() {
        let (levels, other) = (random.arrangement(q, z), random.arrangement(q, z));
        for cell in 0..q * z {
            let damaged = damaged(&mut random, q, &levels, cell);
            both_ways(&mut cross, (q, z), &damaged, &other);
        }
    }
    cross.met(&[3]);
}

/// All pairs of lists of 0 to q + 1 on two cells, and such lists beside an arrangement on three and four; then random lists on every size, some of levels that
/// an arrangement has.
#[test]
fn lists_that_are_arrangements_or_not() {
    let (mut cross, mut random) = (Cross::default(), Random::seeded(807));
    let two = lists(&[0, 1, 2, 3], 2);
    pairs(16, 16).for_each(|(one, other)| cross.rearrange((2, 1), &two[one], &two[other], &fill(2)));
    for (shape, levels) in [((3, 1), &[0, 1, 2, 3, 4][..]), ((2, 2), &[0, 1, 2, 3])] {
        let good = random.arrangement(shape.0, shape.1);
        lists(levels, good.len()).iter().for_each(|list| both_ways(&mut cross, shape, list, &good));
    }
    for (q, z) in shapes().flat_map(|shape| [shape; 4]) {
        let one: Vec<u8> = (0..q * z).map(|_| random.index(q) as u8 + 1).collect();
        let other = random.arrangement(q, z);
        let none = random.bytes(q * z, 256);
        both_ways(&mut cross, (q, z), &one, &other);
        both_ways(&mut cross, (q, z), &one, &none);
    }
    cross.met(&[0, 3]);
}

/// Each list by itself, or all three, with no entry up to many; and each with none, one too few, one too many or as many as there are cells.
#[test]
fn lists_of_other_lengths() {
    let (mut cross, mut random) = (Cross::default(), Random::seeded(808));
    for (q, z) in [(2, 1), (3, 2), (4, 16), (16, 4)] {
        let cells = q * z;
        let long = random.arrangement(q, z).into_iter().cycle().take(65_536 + cells).collect::<Vec<u8>>();
        let mut rearrange = |old: usize, new: usize, list: usize| cross.rearrange((q, z), &long[..old], &long[..new], &fill(list));
        for length in (0..=cells + 3).chain([2 * cells, 256, 256 + cells, 65_536 + cells]) {
            rearrange(length, cells, cells);
            rearrange(cells, length, cells);
            rearrange(cells, cells, length);
            rearrange(length, length, length);
        }
        let lengths = [0, cells - 1, cells, cells + 1];
        lists(&lengths, 3).iter().for_each(|lengths| rearrange(lengths[0], lengths[1], lengths[2]));
    }
    cross.met(&[0, 2]);
}

/// Sizes to past their ranges, and some with low bits or a product modulo 2^64 that would be taken; with lists of so many entries, and of few.
#[test]
fn every_size_and_those_past_all_ranges() {
    let mut cross = Cross::default();
    let high = 1 << 63;
    let far = [32, 64, 65, 255, 256, 257, 258, 1 << 32, 1 << 32 | 1, 1 << 32 | 2, high, high | 1, high | 3, usize::MAX / 3 * 2 + 1, usize::MAX - 1, usize::MAX];
    let numbers: Vec<usize> = (0..=18).chain(far).collect();
    for (q, z) in pairs(numbers.len(), numbers.len()).map(|(q, z)| (numbers[q], numbers[z])) {
        let product = Some(q.wrapping_mul(z)).filter(|&product| product <= 400);
        for cells in [2, 6].into_iter().chain(product) {
            let levels: Vec<u8> = (0..cells).map(|cell| (cell % q.clamp(1, 16)) as u8 + 1).collect();
            cross.rearrange((q, z), &levels, &levels, &fill(cells));
        }
    }
    cross.met(&[0, 1, 2]);
}

/// Right and wrong sizes; the three lists of right and wrong lengths; none, one or both of the two that are read with a wrong level.
#[test]
fn several_reasons_against_a_change() {
    let (mut cross, mut random) = (Cross::default(), Random::seeded(809));
    let right: [Shape; 4] = [(2, 1), (3, 2), (4, 16), (16, 4)];
    let wrong = [(1, 4), (17, 1), (2, 0), (2, 17), (13, 5), (5, 13), (0, 0), (1 << 63 | 1, 2), (2, usize::MAX)];
    for (q, z) in right.into_iter().chain(wrong) {
        let cells = Some(q.wrapping_mul(z)).filter(|&product| product <= 65).unwrap_or(6);
        let good = random.arrangement(q.clamp(2, 16), cells.div_ceil(q.clamp(2, 16)).max(1));
        let bad = damaged(&mut random, q.clamp(2, 16), &good, 0);
        let lent = |levels: &[u8], length: usize| levels.iter().copied().cycle().take(length).collect::<Vec<u8>>();
        for lengths in lists(&[cells.saturating_sub(1), cells, cells + 1], 3) {
            for (old, new) in [(&good, &good), (&good, &bad), (&bad, &good), (&bad, &bad)] {
                cross.rearrange((q, z), &lent(old, lengths[0]), &lent(new, lengths[1]), &fill(lengths[2]));
            }
        }
    }
    cross.met(&[0, 1, 2, 3]);
}
