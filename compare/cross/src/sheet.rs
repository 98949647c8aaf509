//! Bench sheets from their parts.
use crate::cases::{factorial, falling};
use crate::Random;
use std::path::Path;

pub fn count_up(group: usize, k: u32) -> Vec<u8> {
    [&[1, group as u8], &k.to_le_bytes()[..]].concat()
}

pub fn rewrite(group: usize, names: &[u8]) -> Vec<u8> {
    [&[2, group as u8], names].concat()
}

pub fn store(group: usize, m: u64, symbol: u64) -> Vec<u8> {
    [&[3, group as u8], &m.to_le_bytes()[..], &symbol.to_le_bytes()].concat()
}

pub fn change_zero(group: usize) -> Vec<u8> {
    vec![4, group as u8]
}

/// A sheet with true counts.
pub fn sheet(groups: &[Vec<u16>], commands: &[Vec<u8>]) -> Vec<u8> {
    let mut bytes = vec![groups.len() as u8];
    for levels in groups {
        bytes.push(levels.len() as u8);
        bytes.extend(levels.iter().flat_map(|level| level.to_le_bytes()));
    }
    bytes.extend((commands.len() as u16).to_le_bytes());
    bytes.extend(commands.concat());
    bytes
}

/// The third section: the groups on the new zero, after their true count. Where there are none, there is no section.
pub fn section(numbers: &[u8]) -> Vec<u8> {
    if numbers.is_empty() {
        return vec![];
    }
    [&[numbers.len() as u8], numbers].concat()
}

/// Document 01's example, byte by byte.
pub const EXAMPLE: [u8; 39] = [1, 3, 3, 0, 1, 0, 2, 0, 3, 0, 1, 0, 4, 0, 0, 0, 2, 0, 3, 1, 2, 3, 0, 3, 0, 0, 0, 0, 0, 0, 0, 3, 0, 0, 0, 0, 0, 0, 0];

/// That example, with other levels.
pub fn example(levels: [u16; 3]) -> Vec<u8> {
    sheet(&[levels.to_vec()], &[count_up(0, 4), rewrite(0, &[3, 1, 2]), store(0, 3, 3)])
}

/// Small sheets, near the ceiling, so that no damage to them makes a long run: one with document 01's three kinds, one with all four, and two with a third section,
/// the last with changes of a group that it names and of one that it does not.
pub fn small_sheets() -> [Vec<u8>; 4] {
    let groups = [vec![65_500, 65_501], vec![65_200, 65_100, 65_300, 4]];
    let first = [store(1, 24, 17), count_up(1, 30), rewrite(0, &[2, 1]), change_zero(1)];
    let second = [rewrite(1, &[3, 1, 4, 2]), count_up(0, 33), store(0, 2, 1), change_zero(0)];
    let zeros = [sheet(&[vec![65_500, 65_501], vec![65_300, 65_100], vec![65_501, 65_500]], &[count_up(1, 5)]), section(&[1, 2])].concat();
    let three = [vec![65_500, 65_502, 65_501], vec![65_300, 65_100, 65_400]];
    let changes = [sheet(&three, &[change_zero(0), count_up(0, 5), change_zero(1), count_up(1, 7)]), section(&[1])].concat();
    [example([65_400, 65_200, 65_333]), sheet(&groups, &[first, second].concat()), zeros, changes]
}

/// The longest sheet: 64 groups of 20 cells, 1,000 rewrites, and every group on the new zero.
pub fn longest(random: &mut Random) -> Vec<u8> {
    let groups: Vec<Vec<u16>> = (0..64).map(|_| random.group(20)).collect();
    let commands: Vec<Vec<u8>> = (0..1000).map(|command| rewrite(command % 64, &random.names(20))).collect();
    [sheet(&groups, &commands), section(&(0..64).collect::<Vec<u8>>())].concat()
}

/// The sheets that the program `sheets` works, good and faulty.
pub fn of_the_repository() -> Vec<Vec<u8>> {
    let folder = Path::new(env!("CARGO_MANIFEST_DIR")).join("../../crates/sheets/data");
    let entries = folder.read_dir().expect("the folder of sheets");
    entries.map(|entry| std::fs::read(entry.expect("a sheet").path()).expect("the bytes of a sheet")).collect()
}

/// A command of the first so many kinds to a group of n cells, most often with an argument that may be done.
fn random_command(random: &mut Random, kinds: usize, group: usize, n: usize) -> Vec<u8> {
    match random.index(kinds) {
        0 => {
            let (few, many, any) = (random.below(100) as u32, random.below(2000) as u32, random.number() as u32);
            count_up(group, random.pick(&[0, 1, few, few, few, many, any]))
        }
        1 => {
            let mut names = random.names(n);
            if random.index(5) == 0 {
                names[random.index(n)] = random.below(n as u64 + 2) as u8;
            }
            rewrite(group, &names)
        }
        2 => {
            let (p, any) = (random.index(n + 1), random.number());
            let m = 1 + random.below(falling(n, p));
            let good = (m, random.below(m));
            let (m, symbol) = random.pick(&[good, good, good, (m, m), (factorial(n) + 1, 0), (0, 0), (any, any / 2)]);
            store(group, m, symbol)
        }
        _ => change_zero(group),
    }
}

/// The numbers of none of the groups, of some or of all.
fn random_zeros(random: &mut Random, groups: usize) -> Vec<u8> {
    let odds = random.pick(&[0, 0, 1, 2, 4]);
    (0..groups as u8).filter(|_| random.index(4) < odds).collect()
}

/// A sheet without fault, of document 01's three kinds or of all four.
pub fn random_sheet(random: &mut Random, groups: usize, commands: usize) -> Vec<u8> {
    let sizes: Vec<usize> = (0..groups).map(|_| 2 + random.index(19)).collect();
    let groups: Vec<Vec<u16>> = sizes.iter().map(|&n| random.group(n)).collect();
    let numbers: Vec<usize> = (0..commands).map(|_| random.index(groups.len())).collect();
    let kinds = random.pick(&[3, 4, 4]);
    let commands: Vec<Vec<u8>> = numbers.iter().map(|&group| random_command(random, kinds, group, sizes[group])).collect();
    [sheet(&groups, &commands), section(&random_zeros(random, groups.len()))].concat()
}
