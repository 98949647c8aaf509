//! Bands: the permutation and the symbol of levels of which a lowest and a highest are known.
use cross::cases::{factorial, falling, lists, pairs, scales, CEILING};
use cross::{Cross, Random};
use turretmedlar::Reason;

/// The lowest and the highest levels.
type Bands = (Vec<u16>, Vec<u16>);

/// The permutation, and the symbol of each code.
fn read(cross: &mut Cross, (lowest, highest): &Bands, codes: impl IntoIterator<Item = u64>) {
    cross.read_bands(lowest, highest);
    codes.into_iter().for_each(|m| cross.read_symbol_bands(lowest, highest, m));
}

/// Bands that read as these names, of one level or more, with gaps between them or without; the topmost one ends at `top`, which is 2n - 1 at least.
fn sure(random: &mut Random, names: &[u8], top: u16) -> Bands {
    let places: Vec<u8> = (1..=2 * names.len() as u8).collect();
    let ends = random.levels(&places, top);
    let (mut lowest, mut highest) = (vec![0; names.len()], vec![0; names.len()]);
    for (&name, ends) in names.iter().zip(ends.chunks(2)) {
        let ends = random.pick(&[(ends[1], ends[0]), (ends[1], ends[0]), (ends[0], ends[0]), (ends[1], ends[1])]);
        (lowest[usize::from(name) - 1], highest[usize::from(name) - 1]) = ends;
    }
    (lowest, highest)
}

/// Sure bands of n cells with their names, at either end of the range or anywhere.
fn group(random: &mut Random, n: usize) -> (Vec<u8>, Bands) {
    let names = random.names(n);
    let least = 2 * n as u16 - 1;
    let anywhere = least + random.below(60_000) as u16;
    let top = random.pick(&[CEILING, least, anywhere]);
    let bands = sure(random, &names, top);
    (names, bands)
}

/// Makes the bands of the cells at two places share a level: the upper one's lowest, the lower one's highest, or one between them.
fn touch(random: &mut Random, names: &[u8], (lowest, highest): &mut Bands, upper: usize, lower: usize) {
    let (upper, lower) = (usize::from(names[upper]) - 1, usize::from(names[lower]) - 1);
    let (above, below) = (lowest[upper], highest[lower]);
    let between = below + random.below(u64::from(above - below)) as u16;
    let shared = random.pick(&[above, below, between]);
    lowest[upper] = lowest[upper].min(shared);
    highest[lower] = highest[lower].max(shared);
}

/// Codes with prefixes of each length: the fewest symbols that ask for it, the most that it has, and some number between.
fn codes(random: &mut Random, n: usize) -> Vec<u64> {
    let of_length = |p: usize| {
        let (fewest, most) = (falling(n, p - 1) + 1, falling(n, p));
        [fewest, fewest + random.below(most - fewest + 1), most]
    };
    [1].into_iter().chain((1..n).flat_map(of_length)).collect()
}

/// At the bottom, at the ceiling, and with bands over the whole range.
#[test]
fn all_bands_of_five_values_on_two_and_three_cells_in_every_code() {
    let mut cross = Cross::default();
    for values in [[0, 1, 2, 3, 4], [4, 3, 2, 1, 0].map(|less| CEILING - less), [0, 1, 2, CEILING - 1, CEILING]] {
        let bands: Vec<(u16, u16)> = pairs(5, 5).filter(|(one, other)| one <= other).map(|(one, other)| (values[one], values[other])).collect();
        for n in [2, 3] {
            lists(&bands, n).into_iter().for_each(|list| read(&mut cross, &list.into_iter().unzip(), 0..=factorial(n) + 1));
        }
    }
    cross.met(&[0, 5, 7, 10]);
}

#[test]
fn random_bands_of_every_size_in_codes_on_every_scale() {
    let (mut cross, mut random) = (Cross::default(), Random::seeded(601));
    for n in (2..=20).flat_map(|n| [n; 6]) {
        let (names, mut bands) = group(&mut random, n);
        let codes = [codes(&mut random, n), scales(n)].concat();
        read(&mut cross, &bands, codes.iter().copied());
        let upper = random.index(n - 1);
        let lower = upper + 1 + random.index(n - 1 - upper);
        touch(&mut random, &names, &mut bands, upper, lower);
        read(&mut cross, &bands, codes);
    }
    cross.met(&[0, 5, 7, 10]);
}

/// Where the bands of cells at two places share a level, the cells above both lead, and no more of them.
#[test]
fn bands_that_touch_at_every_pair_of_places() {
    let (mut cross, mut random) = (Cross::default(), Random::seeded(602));
    for n in 2..=20 {
        for (lower, upper) in pairs(n, n).filter(|(lower, upper)| upper < lower) {
            let (names, mut bands) = group(&mut random, n);
            touch(&mut random, &names, &mut bands, upper, lower);
            assert_eq!(turretmedlar::read_bands(&bands.0, &bands.1), Err(Reason::Unsure), "{bands:?}");
            for p in 0..n {
                let symbol = turretmedlar::read_symbol_bands(&bands.0, &bands.1, falling(n, p));
                assert_eq!(symbol == Err(Reason::Unsure), p > upper, "the {p} that lead in {bands:?}");
            }
            read(&mut cross, &bands, [upper, upper + 1].map(|p| falling(n, p)));
        }
    }
    cross.met(&[0, 10]);
}

/// Bands side by side, from one end of the range to the other; then one of them a level longer on either side.
#[test]
fn bands_side_by_side() {
    let (mut cross, mut random) = (Cross::default(), Random::seeded(603));
    for n in 2..=20 {
        let (names, width) = (random.names(n), CEILING / n as u16);
        let lowest: Vec<u16> = names.iter().map(|&name| if usize::from(name) == n { 0 } else { CEILING - u16::from(name) * width }).collect();
        let highest: Vec<u16> = names.iter().map(|&name| if name == 1 { CEILING } else { CEILING - (u16::from(name) - 1) * width - 1 }).collect();
        let codes = codes(&mut random, n);
        read(&mut cross, &(lowest.clone(), highest.clone()), codes.iter().copied());
        assert!(turretmedlar::read_bands(&lowest, &highest).is_ok(), "{lowest:?} {highest:?}");
        for cell in 0..n {
            let (mut lower, mut higher) = (lowest.clone(), highest.clone());
            lower[cell] = lower[cell].saturating_sub(1);
            higher[cell] = higher[cell].saturating_add(1);
            read(&mut cross, &(lower, highest.clone()), codes.iter().copied());
            read(&mut cross, &(lowest.clone(), higher), codes.iter().copied());
        }
    }
    cross.met(&[0, 7, 10]);
}

/// They are levels: read as such where there is no tie. One list can be lent as both.
#[test]
fn bands_of_one_level() {
    let (mut cross, mut random) = (Cross::default(), Random::seeded(604));
    for n in (2..=20).flat_map(|n| [n; 10]) {
        let levels = random.group(n);
        let codes = codes(&mut random, n);
        assert_eq!(turretmedlar::read_bands(&levels, &levels), turretmedlar::read(&levels), "{levels:?}");
        for &m in &codes {
            assert_eq!(turretmedlar::read_symbol_bands(&levels, &levels, m), turretmedlar::read_symbol(&levels, m), "{levels:?} {m}");
        }
        read(&mut cross, &(levels.clone(), levels), codes);
    }
    for levels in (2..=4).flat_map(|n| lists(&[0, 1, 2, CEILING], n)) {
        let most = factorial(levels.len());
        read(&mut cross, &(levels.clone(), levels), 1..=most);
    }
    cross.met(&[0, 7, 10]);
}

#[test]
fn a_lowest_above_its_highest_in_every_cell() {
    let (mut cross, mut random) = (Cross::default(), Random::seeded(605));
    for (n, cell) in (2..=20).flat_map(|n| (0..n).flat_map(move |cell| [(n, cell); 3])) {
        let (_, (mut lowest, mut highest)) = group(&mut random, n);
        let level = lowest[cell].clamp(1, CEILING - 1);
        (lowest[cell], highest[cell]) = random.pick(&[(level, level - 1), (level + 1, level), (CEILING, 0), (CEILING, CEILING - 1), (1, 0)]);
        read(&mut cross, &(lowest, highest), [0, 1, 2, factorial(n)]);
    }
    cross.met(&[5]);
}

/// Two lists of right and wrong lengths, equal or not; each with good bands, with bands that touch, and with a lowest above its highest.
#[test]
fn several_reasons_against_a_reading() {
    let (mut cross, mut random) = (Cross::default(), Random::seeded(606));
    let long = [(2, 65_538), (65_538, 2), (65_538, 65_538)];
    let longer = [255, 256, 258, 276].into_iter().flat_map(|length| [(length, length), (length, length - 1), (length % 256, length), (length, length % 256)]);
    for (n, length) in pairs(24, 24).chain(longer).chain(long) {
        let most = factorial(n.clamp(2, 20));
        for fault in 0..if n == length { 12 } else { 4 } {
            let (names, mut bands) = group(&mut random, 20);
            if fault & 1 == 1 {
                touch(&mut random, &names, &mut bands, 0, 19);
            }
            (bands.0, bands.1) = (bands.0.into_iter().cycle().take(n).collect(), bands.1.into_iter().cycle().take(length).collect());
            if fault & 2 == 2 && n > 0 && length > 0 {
                (bands.0[0], bands.1[0]) = (9, 8);
            }
            read(&mut cross, &bands, [0, 1, 2, most / 2 + 1, most, most + 1, u64::MAX]);
        }
    }
    cross.met(&[0, 1, 2, 5, 7, 10]);
}

/// Any levels, out of so many that a reading of up to 20 cells is sure about as often as not.
#[test]
fn random_lists() {
    let (mut cross, mut random) = (Cross::default(), Random::seeded(607));
    for n in (2..=20).flat_map(|n| [n; 1000]) {
        let width = random.pick(&[1, 2, 4]);
        let lowest: Vec<u16> = (0..n).map(|_| random.below((n * n) as u64) as u16).collect();
        let highest: Vec<u16> = lowest.iter().map(|level| level + random.below(width) as u16).collect();
        let p = random.index(n);
        let m = 1 + random.below(falling(n, p));
        read(&mut cross, &(lowest, highest), [m]);
    }
    cross.met(&[0, 7, 10]);
}
