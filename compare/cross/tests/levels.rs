//! Jobs on levels: read, push and count up, and lists of wrong lengths and with ties in every job that takes levels.
use cross::cases::{factorial, lists, permutations, places, CEILING};
use cross::{Cross, Random};
use turretmedlar::Spent;

/// Numbers of steps about a whole round, the room below the ceiling and the ends of 16 and 32 bits.
fn counts(levels: &[u16]) -> Vec<u32> {
    let n = levels.len();
    let room = CEILING - levels.iter().copied().max().unwrap_or(0);
    let round = if n <= 6 { factorial(n) as u32 } else { 40 };
    [round, u32::from(room), 1 << 16].into_iter().flat_map(|k| k.saturating_sub(1)..=k + 1).chain([0, 1, 2, 3, 1 << 31, u32::MAX]).collect()
}

fn count_up_by(cross: &mut Cross, levels: &[u16], counts: impl IntoIterator<Item = u32>) {
    for k in counts {
        cross.count_up(levels, k);
    }
}

fn push_at_every_place(cross: &mut Cross, levels: &[u16]) {
    for place in places(levels.len()) {
        cross.push_level(levels, place);
    }
}

#[test]
fn lists_of_right_and_wrong_lengths() {
    let (mut cross, mut random) = (Cross::default(), Random::seeded(201));
    for length in (0..=25).chain([255, 256, 258, 1000, 65_536, 65_538, 70_000]) {
        let falling: Vec<u16> = (0..length).map(|cell| CEILING - cell as u16).collect();
        let rising: Vec<u16> = (0..length).map(|cell| cell as u16).collect();
        let any: Vec<u16> = (0..length).map(|_| random.number() as u16).collect();
        for levels in [falling, rising, any, vec![0; length], vec![CEILING; length]] {
            for (place, k, code) in [(2, 1, (2, 1)), (length, 3, (1, 0)), (0, u32::MAX, (0, 0)), (length + 1, 0, (u64::MAX, 5))] {
                cross.jobs_on_levels(&levels, place, k, code);
            }
        }
    }
    cross.met(&[0, 1, 4, 5, 6, 7]);
}

#[test]
fn every_permutation_to_six_read_pushed_and_counted_up() {
    let (mut cross, mut random) = (Cross::default(), Random::seeded(202));
    for names in (2..=6).flat_map(permutations) {
        let top = CEILING - random.pick(&[0, 1, 2, 60, 800, 800]);
        let levels = random.levels(&names, top);
        cross.read(&levels);
        push_at_every_place(&mut cross, &levels);
        count_up_by(&mut cross, &levels, counts(&levels));
    }
    cross.met(&[0, 5, 6]);
}

#[test]
fn random_levels_of_every_size() {
    let (mut cross, mut random) = (Cross::default(), Random::seeded(203));
    for n in (2..=20).flat_map(|n| [n; 60]) {
        let levels = random.group(n);
        cross.read(&levels);
        push_at_every_place(&mut cross, &levels);
        count_up_by(&mut cross, &levels, [0, 1, 2, 3, n as u32, random.below(200) as u32, random.number() as u32]);
    }
    cross.met(&[0, 5, 6]);
}

#[test]
fn all_lists_of_five_values_at_the_bottom_and_at_the_ceiling() {
    let mut cross = Cross::default();
    for values in [[0, 1, 2, 3, 4], [0, 1, 2, 3, 4].map(|less| CEILING - less)] {
        for levels in (2..=4).flat_map(|n| lists(&values, n)) {
            cross.read(&levels);
            push_at_every_place(&mut cross, &levels);
            count_up_by(&mut cross, &levels, 0..=6);
        }
    }
    cross.met(&[0, 4, 5, 6]);
}

#[test]
fn a_tie_of_every_pair() {
    let (mut cross, mut random) = (Cross::default(), Random::seeded(204));
    for n in (2..=20).flat_map(|n| [n; 3]) {
        for (one, other) in (0..n).flat_map(|one| (0..one).map(move |other| (one, other))) {
            let mut levels = random.group(n);
            levels[one] = levels[other];
            let k = random.pick(&[0, 1, u32::MAX]);
            let code = random.pick(&[(0, 0), (1, 0), (2, 1), (2, 2), (u64::MAX, 0)]);
            cross.jobs_on_levels(&levels, random.index(n + 2), k, code);
        }
    }
    cross.met(&[4]);
}

#[test]
fn small_rooms_below_the_ceiling_with_k_about_them() {
    let (mut cross, mut random) = (Cross::default(), Random::seeded(205));
    for n in 2..=20 {
        for room in (0..20).chain([254, 255, 256, 257, 500]) {
            let levels = random.group_below(n, CEILING - room);
            count_up_by(&mut cross, &levels, counts(&levels));
            push_at_every_place(&mut cross, &levels);
        }
    }
    cross.met(&[0, 5, 6]);
}

#[test]
fn every_k_to_fifty_or_past_a_round() {
    let (mut cross, mut random) = (Cross::default(), Random::seeded(206));
    for names in (2..=4).flat_map(permutations) {
        count_up_by(&mut cross, &random.levels(&names, 2000), 0..=50);
    }
    for n in [5, 6] {
        count_up_by(&mut cross, &random.group_below(n, 2000), 0..=factorial(n) as u32 + 5);
    }
    cross.met(&[0]);
}

#[test]
fn long_runs() {
    let (mut cross, mut random) = (Cross::default(), Random::seeded(207));
    for n in [4, 8, 20] {
        cross.count_up(&random.group_below(n, 5000), 60_000);
    }
    count_up_by(&mut cross, &[2, 0, 1], 65_533..=65_536);
    cross.met(&[0, 6]);
}

/// One cell near the ceiling, the others at the bottom: a push of one of these jumps over almost the whole range, or over all of it.
#[test]
fn the_longest_jumps() {
    let (mut cross, mut random) = (Cross::default(), Random::seeded(209));
    for n in 2..=20 {
        for room in [1, 2, 5, n as u16, 60] {
            let level = |name: u8| if usize::from(name) == n { CEILING - room } else { u16::from(name) - 1 };
            let levels: Vec<u16> = random.names(n).into_iter().map(level).collect();
            push_at_every_place(&mut cross, &levels);
            count_up_by(&mut cross, &levels, 0..=u32::from(room) + 1);
        }
    }
    assert_eq!(turretmedlar::push_level(&mut [0, CEILING - 1], 2), Ok(Spent { pushes: 1, charge: CEILING.into() }));
    cross.met(&[0, 5, 6]);
}

/// Every cell from the bottom to the ceiling, by one count and by two. From levels without a gap no total of k steps is above n times k; these are at most n - 2 below it.
#[test]
fn large_totals() {
    let mut cross = Cross::default();
    for n in [2, 3, 19, 20] {
        let bottom: Vec<u16> = (0..n).collect();
        cross.count_up(&bottom, (CEILING - (n - 1)).into());
        let half = cross.count_up(&bottom, 30_000).expect("room for all");
        cross.count_up(&half, (CEILING - (n - 1) - 30_000).into());
    }
    cross.met(&[0]);
}

#[test]
fn calls_one_after_another_up_to_the_ceiling() {
    let (mut cross, mut random) = (Cross::default(), Random::seeded(208));
    for n in 2..=20 {
        let mut levels = random.group_below(n, CEILING - 900);
        for _ in 0..60 {
            levels = cross.count_up(&levels, random.below(40) as u32).unwrap_or(levels);
            levels = cross.push_level(&levels, 2 + random.index(n - 1)).unwrap_or(levels);
            cross.read(&levels);
        }
    }
    cross.met(&[0, 6]);
}
