//! Inputs that several tests try.
use crate::{fill, Cross, Random};
use turretmedlar::Permutation;

/// The highest level.
pub const CEILING: u16 = u16::MAX;

/// Numbers of cells that no group has; some would pass if only their low bits were seen.
pub const WRONG_SIZES: [usize; 13] = [0, 1, 21, 22, 23, 24, 25, 255, 256, 258, 1 << 32, 1 << 32 | 3, usize::MAX];

/// All pairs of a number below the one bound and a number below the other.
pub fn pairs(one: usize, other: usize) -> impl Iterator<Item = (usize, usize)> {
    (0..one).flat_map(move |first| (0..other).map(move |second| (first, second)))
}

/// All lists of n of the values.
pub fn lists<T: Copy>(values: &[T], n: usize) -> Vec<Vec<T>> {
    (0..n).fold(vec![vec![]], |lists: Vec<Vec<T>>, _| lists.iter().flat_map(|list| values.iter().map(|&value| [&list[..], &[value]].concat())).collect())
}

pub fn factorial(n: usize) -> u64 {
    falling(n, n)
}

/// n!/(n-p)!, the number of prefixes of length p, and of permutations within p pushes.
pub fn falling(n: usize, p: usize) -> u64 {
    (n - p + 1..=n).map(|factor| factor as u64).product()
}

/// All permutations of the names 1 to n.
pub fn permutations(n: usize) -> Vec<Vec<u8>> {
    if n == 0 {
        return vec![vec![]];
    }
    let insert = |names: &Vec<u8>, place: usize| [&names[..place], &[n as u8], &names[place..]].concat();
    permutations(n - 1).iter().flat_map(|names| (0..n).map(move |place| insert(names, place))).collect()
}

/// Every q and z of an arrangement, 126 of them.
pub fn shapes() -> impl Iterator<Item = (usize, usize)> {
    (2..=16).flat_map(|q| (1..=16).map(move |z| (q, z))).filter(|(q, z)| q * z <= 64)
}

/// All arrangements of z cells on each of q levels.
pub fn arrangements(q: usize, z: usize) -> Vec<Vec<u8>> {
    let levels: Vec<u8> = (1..=q as u8).collect();
    let used = |list: &[u8], level: u8| list.iter().filter(|&&other| other == level).count();
    let mut all = lists(&levels, q * z);
    all.retain(|list| levels.iter().all(|&level| used(list, level) == z));
    all
}

/// Every n and m of an uneven code, 281 of them.
pub fn uneven_codes() -> impl Iterator<Item = (usize, usize)> {
    (2..=8).flat_map(|n| (2..=factorial(n).min(64) as usize).map(move |m| (n, m)))
}

/// The record of at most twenty names.
pub fn record(names: &[u8]) -> Permutation {
    Permutation::new(names).expect("at most twenty names")
}

/// Places to push: from 0 to past n, and high numbers whose low bits are a place.
pub fn places(n: usize) -> impl Iterator<Item = usize> {
    (0..=n + 1).chain([258, 65_538, 1 << 32 | 2, usize::MAX])
}

/// Two tops for a job on levels of these names: one with which its pushes just fit, and one too high by 1. Without pushes both are the ceiling.
pub fn tops(names: &[u8], job: impl Fn(&mut [u16]) -> Result<model::Spent, model::Reason>) -> [u16; 2] {
    let pushes = job(&mut Random::seeded(0).levels(names, 1000)).map_or(1, |spent| spent.pushes) as u16;
    [CEILING - pushes, CEILING - pushes.saturating_sub(1)]
}

/// Levels that read as these names, or where there are two names or more, two of them equal.
pub fn levels_or_tie(random: &mut Random, names: &[u8], top: u16, tie: bool) -> Vec<u16> {
    let mut levels = random.levels(names, top);
    if tie && names.len() >= 2 {
        levels[0] = levels[1 + random.index(names.len() - 1)];
    }
    levels
}

/// A code's number of symbols on every scale: each number of prefixes with its neighbours, and some outside 1 to n!.
pub fn scales(n: usize) -> Vec<u64> {
    let around = |p| (falling(n, p).saturating_sub(1)..).take(3);
    (0..=n).flat_map(around).chain([0, 1 << 32 | 2, 1 << 63, u64::MAX]).collect()
}

impl Cross {
    /// All that is asked of a record, as a target too.
    pub fn jobs_on_record(&mut self, record: Permutation, place: usize) {
        self.push(record, place);
        self.successor(record);
        self.digits(record);
        self.rank(record);
        self.value(record, 0);
        self.value(record, 1);
        let n = record.n.clamp(2, 20) as u16;
        let levels: Vec<u16> = (0..n).map(|cell| 3 * (cell * 7 % 23)).collect();
        self.rewrite(&levels, record, &fill(usize::from(n) - 1));
    }

    /// All that is asked of levels. What one push reaches is listed in bytes that are enough for 20 cells.
    pub fn jobs_on_levels(&mut self, levels: &[u16], place: usize, k: u32, (m, symbol): (u64, u64)) {
        self.read(levels);
        self.push_level(levels, place);
        self.count_up(levels, k);
        self.within_reach(levels, 1, &fill(400));
        self.store(levels, m, symbol);
        self.read_symbol(levels, m);
    }
}
