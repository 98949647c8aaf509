//! The permutations within reach: the listing of every size by every number of pushes, in lent lists of lengths about its own, and its refusals.
use cross::cases::{falling, permutations, CEILING};
use cross::{fill, Cross, Random};

/// The most bytes of a listing.
const MOST: usize = 65_536;

/// The bytes of a listing that can be asked for.
fn bytes(n: usize, r: usize) -> Option<usize> {
    let count = (n <= 20 && r < n).then(|| falling(n, r) as usize)?;
    (count <= MOST / n).then(|| n * count)
}

/// In no byte, in one too few, in as many as the listing has, and in more; in some where there is none.
fn list(cross: &mut Cross, levels: &[u16], r: usize) {
    let bytes = bytes(levels.len(), r).unwrap_or(60);
    for length in [0, bytes - 1, bytes, bytes + 33] {
        cross.within_reach(levels, r, &fill(length));
    }
}

#[test]
fn every_permutation_to_five_with_every_r() {
    let (mut cross, mut random) = (Cross::default(), Random::seeded(701));
    for names in (2..=5).flat_map(permutations) {
        let n = names.len();
        let top = random.pick(&[CEILING, n as u16 - 1, 2000]);
        let levels = random.levels(&names, top);
        (0..=n).for_each(|r| list(&mut cross, &levels, r));
    }
    cross.met(&[0, 2, 5]);
}

#[test]
fn random_levels_of_six_to_twenty_with_every_r() {
    let (mut cross, mut random) = (Cross::default(), Random::seeded(702));
    for n in 6..=20 {
        for r in 0..=n {
            // one of each that takes long
            for _ in 0..if bytes(n, r) > Some(2000) { 1 } else { 4 } {
                list(&mut cross, &random.group(n), r);
            }
        }
    }
    cross.met(&[0, 2, 5]);
}

/// Some have low bits of a number that would be taken.
#[test]
fn numbers_of_pushes_past_all_sizes() {
    let (mut cross, mut random) = (Cross::default(), Random::seeded(703));
    for n in 2..=20 {
        let levels = random.group(n);
        for r in [n, n + 1, 255, 256, 257, 1 << 16, 1 << 16 | 1, 1 << 32, 1 << 32 | 1, 1 << 63, 1 << 63 | 1, usize::MAX - 1, usize::MAX] {
            list(&mut cross, &levels, r);
        }
    }
    cross.met(&[5]);
}

#[test]
fn lists_of_every_length_about_a_listing() {
    let (mut cross, mut random) = (Cross::default(), Random::seeded(704));
    for (n, r) in [(2, 1), (3, 0), (3, 1), (4, 2), (7, 1), (20, 0)] {
        let levels = random.group(n);
        let bytes = bytes(n, r).expect("a listing");
        (0..bytes + 2 * n).for_each(|length| cross.within_reach(&levels, r, &fill(length)));
    }
    cross.met(&[0, 2]);
}

/// The listings that would have the fewest bytes of all above 65,536, and what else is too long by one push: refused, though as many bytes are lent.
#[test]
fn listings_too_long_in_lists_long_enough() {
    let (mut cross, mut random) = (Cross::default(), Random::seeded(705));
    for (n, r) in [(17, 3), (11, 4), (18, 3), (19, 3), (9, 5), (20, 3), (12, 4), (8, 6)] {
        let bytes = n * falling(n, r) as usize;
        assert!(bytes > MOST);
        cross.within_reach(&random.group(n), r, &fill(bytes));
        cross.within_reach(&random.group(n), r, &fill(MOST));
    }
    cross.met(&[5]);
}

/// Right and wrong numbers of levels, without a tie and with one; r to be taken and not; lists of right and wrong lengths.
#[test]
fn several_reasons_against_a_listing() {
    let (mut cross, mut random) = (Cross::default(), Random::seeded(706));
    for (n, tied) in (0..24).chain([255, 256, 258, 276]).flat_map(|n| [(n, false), (n, true)]) {
        let mut levels: Vec<u16> = (0..n as u16).collect();
        if tied && n > 1 {
            levels[random.index(n - 1)] = levels[n - 1];
        }
        for r in [0, 1, 2, n.wrapping_sub(1), n, usize::MAX] {
            list(&mut cross, &levels, r);
        }
    }
    cross.met(&[0, 1, 2, 4, 5]);
}
