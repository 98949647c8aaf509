//! Whole bench sheets, good and damaged, with text buffers of every length.
use cross::cases::{factorial, lists, pairs, record};
use cross::sheet::{change_zero, count_up, example, longest, of_the_repository, random_sheet, section, sheet, small_sheets, store, EXAMPLE};
use cross::{fill, Cross, Random};
use model::{Command, Job, Zero};
use turretmedlar::{rank, SHEET_BYTES, TEXT_BYTES};

/// Works through a sheet with a buffer a little longer than its text, which is given.
fn work(cross: &mut Cross, sheet: &[u8]) -> Vec<u8> {
    let text = model::bench(sheet);
    cross.bench(sheet, &text, &fill(text.len() + 3));
    text
}

/// Works through a sheet with a buffer of each of these lengths.
fn work_in(cross: &mut Cross, sheet: &[u8], rooms: impl Fn(usize) -> Vec<usize>) {
    let text = model::bench(sheet);
    rooms(text.len()).into_iter().for_each(|room| cross.bench(sheet, &text, &fill(room)));
}

fn about(needed: usize) -> Vec<usize> {
    vec![0, 1, needed - 1, needed, needed + 1, TEXT_BYTES, TEXT_BYTES + 7]
}

#[test]
fn the_example_of_document_01() {
    let mut cross = Cross::default();
    assert_eq!(example([3, 1, 2]), EXAMPLE);
    assert_eq!(work(&mut cross, &EXAMPLE), b"c 1 0 4\nc 2 0 1\nc 3 5 0\ng 0 5 7 6 8\n");
    cross.met(&[0]);
}

/// Document 02: "[1,2,3,4] is 10 on the old and 0 on the new, and [1,3,2] is 0 and 2."
#[test]
fn both_zeros_on_one_sheet() {
    let mut cross = Cross::default();
    let [four, three] = [vec![4, 3, 2, 1], vec![3, 1, 2]];
    let groups = [four.clone(), four, three.clone(), three];
    let text = b"g 0 10 4 3 2 1\ng 1 0 4 3 2 1\ng 2 0 3 1 2\ng 3 2 3 1 2\n";
    assert_eq!(work(&mut cross, &[sheet(&groups, &[]), section(&[1, 3])].concat()), text);
    assert_eq!(work(&mut cross, &[&EXAMPLE[..], &section(&[0])].concat()), b"c 1 0 4\nc 2 0 1\nc 3 5 0\ng 0 1 7 6 8\n");
    cross.met(&[0]);
}

/// The same groups and example, changed by commands: "Kind 4, with a group byte and nothing more, does so, and its line shows 0 pushes."
#[test]
fn changes_to_the_new_zero() {
    let mut cross = Cross::default();
    let groups = [vec![4, 3, 2, 1], vec![3, 1, 2]];
    let changed = [change_zero(0), change_zero(1), change_zero(0)];
    assert_eq!(work(&mut cross, &sheet(&groups, &[])), b"g 0 10 4 3 2 1\ng 1 0 3 1 2\n");
    assert_eq!(work(&mut cross, &sheet(&groups, &changed[..1])), b"c 1 0 0\ng 0 0 4 3 2 1\ng 1 0 3 1 2\n");
    assert_eq!(work(&mut cross, &sheet(&groups, &changed)), b"c 1 0 0\nc 2 0 0\nc 3 0 0\ng 0 0 4 3 2 1\ng 1 2 3 1 2\n");
    let (before, after) = EXAMPLE[10..].split_at(6);
    let example = [&EXAMPLE[..8], &[4, 0], before, &change_zero(0), after].concat();
    for section in [section(&[]), section(&[0])] {
        assert_eq!(work(&mut cross, &[&example[..], &section].concat()), b"c 1 0 4\nc 2 0 0\nc 3 0 1\nc 4 5 0\ng 0 1 7 6 8\n");
    }
    cross.met(&[0]);
}

/// The lines of a text that have this mark: the numbers after it.
fn rows(text: &[u8], mark: u8) -> Vec<Vec<u64>> {
    let lines = text.split(|&byte| byte == b'\n').filter(|line| line.first() == Some(&mark)).map(|line| String::from_utf8_lossy(line));
    lines.map(|line| line.split(' ').skip(1).map(|field| field.parse().expect("a number")).collect()).collect()
}

/// Document 02: "only the value differs, by the rank of [1,2,...,n] modulo n!". With a change of a group put before the command of this index, it is done, the others
/// are answered as without it, and all levels are the same. The value of the group differs, where it would be left on the old zero.
fn work_with_a_change(cross: &mut Cross, sheet: &[u8], index: usize, group: u8) {
    let mut held = model::read_sheet(sheet).expect("a sheet without fault");
    let change = Command { group, job: Job::ChangeZero };
    let moved = held.groups[usize::from(group)].zero == Zero::Old && !held.commands.contains(&change);
    held.commands.insert(index, change);
    let mut bytes = fill(sheet.len() + 2);
    assert_eq!(model::write_sheet(&held, &mut bytes), Ok(sheet.len() + 2));
    let (without, with) = (work(cross, sheet), work(cross, &bytes));
    let mut answers = rows(&without, b'c');
    answers[index..].iter_mut().for_each(|answer| answer[0] += 1);
    answers.insert(index, vec![index as u64 + 1, 0, 0]);
    assert_eq!(rows(&with, b'c'), answers, "group {group} changed at {index} of {sheet:?}");
    let mut groups = rows(&without, b'g');
    if moved {
        let line = &mut groups[usize::from(group)];
        let n = line.len() - 2;
        let rising = rank(record(&(1..=n as u8).collect::<Vec<u8>>())).expect("a permutation");
        line[1] = (line[1] + factorial(n) - rising) % factorial(n);
    }
    assert_eq!(rows(&with, b'g'), groups, "group {group} changed at {index} of {sheet:?}");
}

#[test]
fn random_sheets_with_and_without_a_change() {
    let (mut cross, mut random) = (Cross::default(), Random::seeded(413));
    for most in (0..900).map(|round| [2, 5, 20][round % 3]) {
        let (groups, commands) = (1 + random.index(most), random.index(most + 3));
        let sheet = random_sheet(&mut random, groups, commands);
        let (index, group) = (random.index(commands + 1), random.index(groups));
        work_with_a_change(&mut cross, &sheet, index, group as u8);
    }
    for sheet in small_sheets() {
        let held = model::read_sheet(&sheet).expect("a sheet without fault");
        pairs(held.commands.len() + 1, held.groups.len()).for_each(|(index, group)| work_with_a_change(&mut cross, &sheet, index, group as u8));
    }
    cross.met(&[0]);
}

/// "From the old zero, counting k after the change gives the order and levels that k without it gives": each size, to the ceiling and past it.
#[test]
fn counts_after_a_change() {
    let (mut cross, mut random) = (Cross::default(), Random::seeded(414));
    for (n, k) in (2..=20).flat_map(|n| [0, 1, 23, 435, 436, u32::MAX].map(|k| (n, k))) {
        let sheet = sheet(&[random.group_below(n, 65_000)], &[count_up(0, 100), count_up(0, k)]);
        (0..3).for_each(|index| work_with_a_change(&mut cross, &sheet, index, 0));
    }
    cross.met(&[0]);
}

/// Sections of up to five of these bytes: good are a true count and numbers that rise.
#[test]
fn every_short_section_of_three_groups() {
    let mut cross = Cross::default();
    let before = sheet(&[vec![7, 9], vec![3, 1, 2], vec![65_501, 65_500]], &[count_up(1, 2)]);
    let sections = (0..=5).flat_map(|length| lists(&[0, 1, 2, 3], length)).chain((1..=3).flat_map(|length| lists(&[0, 1, 4, 63, 64, 65, 128, 255], length)));
    let mut good: Vec<Vec<u8>> = sections.filter(|section| work(&mut cross, &[&before[..], section].concat())[0] != b's').collect();
    good.sort_unstable();
    good.dedup();
    assert_eq!(good, [&[][..], &[1, 0], &[1, 1], &[1, 2], &[2, 0, 1], &[2, 0, 2], &[2, 1, 2], &[3, 0, 1, 2]]);
    cross.met(&[0, 8]);
}

/// Of 64 groups, with each byte of the section a little lower or higher, or any; and with each number left out.
#[test]
fn sections_of_64_groups_damaged() {
    let (mut cross, mut random) = (Cross::default(), Random::seeded(412));
    let groups: Vec<Vec<u16>> = (0..64).map(|group| vec![group, 700, 100]).collect();
    let before = sheet(&groups, &[]);
    for numbers in [(0..64).collect(), (0..64).step_by(2).collect(), vec![63], vec![5, 40, 60]] {
        let section = section(&numbers);
        for at in 0..section.len() {
            for byte in [section[at].wrapping_sub(1), section[at], section[at] + 1, 0, 63, 64, 65, 255, random.number() as u8] {
                let mut damaged = section.clone();
                damaged[at] = byte;
                work(&mut cross, &[&before[..], &damaged].concat());
            }
            work(&mut cross, &[&before[..], &section[..at]].concat());
            work(&mut cross, &[&before[..], &section[..at], &section[at + 1..]].concat());
        }
        for at in 1..section.len() {
            let others = [&[section[0] - 1], &section[1..at], &section[at + 1..]].concat();
            work(&mut cross, &[&before[..], &others].concat());
        }
    }
    cross.met(&[0, 8]);
}

#[test]
fn every_prefix_of_several_sheets() {
    let (mut cross, mut random) = (Cross::default(), Random::seeded(401));
    let others = [(1, 5), (3, 0), (5, 20), (64, 3)].map(|(groups, commands)| random_sheet(&mut random, groups, commands));
    for sheet in small_sheets().iter().chain(&others) {
        (0..=sheet.len()).for_each(|length| drop(work(&mut cross, &sheet[..length])));
    }
    cross.met(&[0, 8]);
}

#[test]
fn each_byte_of_small_sheets_set_to_every_value() {
    let mut cross = Cross::default();
    for sheet in small_sheets() {
        for (at, value) in pairs(sheet.len(), 256) {
            let mut damaged = sheet.clone();
            damaged[at] = value as u8;
            work(&mut cross, &damaged);
        }
    }
    cross.met(&[0, 1, 4, 8]);
}

#[test]
fn a_byte_deleted_doubled_or_inserted_at_every_place() {
    let (mut cross, mut random) = (Cross::default(), Random::seeded(402));
    for sheet in small_sheets().iter().chain(&[random_sheet(&mut random, 4, 12)]) {
        for at in 0..sheet.len() {
            let (before, rest) = sheet.split_at(at);
            work(&mut cross, &[before, &rest[1..]].concat());
            for byte in [rest[0], 0, 1, 2, 3, 4, 5, 255, random.number() as u8] {
                work(&mut cross, &[before, &[byte], rest].concat());
            }
        }
    }
    cross.met(&[0, 1, 4, 8]);
}

#[test]
fn bytes_after_the_last_command() {
    let (mut cross, mut random) = (Cross::default(), Random::seeded(403));
    for sheet in small_sheets().iter().chain(&[random_sheet(&mut random, 2, 0)]) {
        for more in [0, 1, 2, 3, 20, 300, SHEET_BYTES - sheet.len(), SHEET_BYTES + 1 - sheet.len()] {
            work(&mut cross, &[&sheet[..], &vec![0; more]].concat());
            work(&mut cross, &[&sheet[..], &random.bytes(more, 256)].concat());
        }
        work(&mut cross, &[&sheet[..], &sheet[..]].concat());
    }
    cross.met(&[0, 8]);
}

#[test]
fn random_sheets_without_fault() {
    let (mut cross, mut random) = (Cross::default(), Random::seeded(404));
    for (groups, commands) in [(1, 0), (64, 0), (1, 1000), (64, 1000)] {
        work(&mut cross, &random_sheet(&mut random, groups, commands));
    }
    for most in (0..400).map(|round| [3, 20, 64][round % 3]) {
        let (groups, commands) = (1 + random.index(most), random.index(2 * most));
        work(&mut cross, &random_sheet(&mut random, groups, commands));
    }
    cross.met(&[0]);
}

#[test]
fn random_sheets_damaged() {
    let (mut cross, mut random) = (Cross::default(), Random::seeded(405));
    for _ in 0..8000 {
        let (groups, commands) = (1 + random.index(5), random.index(12));
        let mut sheet = random_sheet(&mut random, groups, commands);
        for _ in 0..=random.index(3) {
            let at = random.index(sheet.len());
            match random.index(5) {
                0 => sheet[at] = random.number() as u8,
                1 => sheet[at] = sheet[at].wrapping_add(random.pick(&[1, 255])),
                2 => sheet.insert(at, random.number() as u8),
                3 => sheet.truncate(at + 1),
                _ => sheet.copy_within(at / 2..at, 0),
            }
        }
        work(&mut cross, &sheet);
    }
    cross.met(&[0, 1, 4, 8]);
}

#[test]
fn garbage_of_every_length_to_200() {
    let (mut cross, mut random) = (Cross::default(), Random::seeded(406));
    for length in (0..=200).flat_map(|length| [length; 20]) {
        let bound = random.pick(&[2, 5, 22, 256]);
        work(&mut cross, &random.bytes(length, bound));
    }
    cross.met(&[1, 4, 8]);
}

#[test]
fn counts_and_group_numbers_about_their_ends() {
    let mut cross = Cross::default();
    for groups in (0_usize..=66).chain([128, 254]) {
        let lists: Vec<Vec<u16>> = (0..groups as u16).map(|level| vec![level, 700]).collect();
        for group in [0, groups / 2, groups.saturating_sub(1), groups, groups + 1, 255] {
            work(&mut cross, &sheet(&lists, &[count_up(group, 1)]));
            work(&mut cross, &sheet(&lists, &[change_zero(group)]));
        }
    }
    for commands in [0, 1, 255, 256, 257, 999, 1000, 1001, 1002, 1024, 65_535] {
        work(&mut cross, &sheet(&[vec![5, 6]], &vec![count_up(0, 1); commands]));
        work(&mut cross, &sheet(&[vec![5, 6, 7]], &vec![change_zero(0); commands]));
    }
    cross.met(&[0, 8]);
}

#[test]
fn sizes_and_ties_in_each_of_several_groups() {
    let (mut cross, mut random) = (Cross::default(), Random::seeded(407));
    for n in (0..=22).chain([128, 255]) {
        for (one, other) in pairs(4, 4) {
            let mut groups: Vec<Vec<u16>> = (0..4).map(|_| random.group(4)).collect();
            groups[other][3] = groups[other][random.index(4)];
            groups[one] = (0..n).collect();
            work(&mut cross, &sheet(&groups, &[count_up(0, 1), vec![9]]));
        }
    }
    cross.met(&[1, 4, 8]);
}

#[test]
fn the_longest_sheet_and_longer_ones() {
    let (mut cross, mut random) = (Cross::default(), Random::seeded(408));
    let sheet = longest(&mut random);
    assert_eq!(sheet.len(), SHEET_BYTES);
    for more in [0, 1, 2, 100_000 - SHEET_BYTES] {
        work_in(&mut cross, &[&sheet[..], &vec![0; more]].concat(), about);
    }
    work(&mut cross, &sheet[..SHEET_BYTES - 1]);
    work(&mut cross, &sheet[..SHEET_BYTES - 64]);
    work_in(&mut cross, &sheet[..SHEET_BYTES - 65], about);
    cross.met(&[0, 2, 8]);
}

/// Ranks of 19 digits, levels of five, pushes of four and five: the 64 groups start at the bottom and are counted up.
#[test]
fn a_text_near_the_longest() {
    let (mut cross, mut random) = (Cross::default(), Random::seeded(409));
    let start = |group: u64| turretmedlar::unrank(20, 2_000_000_000_000_000_000 + group).expect("a rank");
    let groups: Vec<Vec<u16>> = (0..64).map(|group| random.levels(&start(group).cells, 19)).collect();
    let commands: Vec<Vec<u8>> = (0..1000).map(|command| count_up(command % 64, if command < 320 { 10_000 } else { 1000 })).collect();
    let text = work(&mut cross, &sheet(&groups, &commands));
    assert_eq!(text.len(), 22_483);
    cross.met(&[0]);
}

#[test]
fn the_sheets_of_the_repository() {
    let mut cross = Cross::default();
    of_the_repository().iter().for_each(|sheet| drop(work(&mut cross, sheet)));
    cross.met(&[0, 1, 4, 8]);
}

#[test]
fn text_buffers_of_every_length_for_small_texts() {
    let (mut cross, mut random) = (Cross::default(), Random::seeded(410));
    let others = [vec![], vec![1, 21], vec![1, 2, 7, 0, 7, 0], random_sheet(&mut random, 3, 5)];
    for sheet in small_sheets().iter().chain(&others) {
        work_in(&mut cross, sheet, |needed| (0..=needed + 3).collect());
    }
    cross.met(&[0, 1, 2, 4, 8]);
}

#[test]
fn text_buffers_about_the_length_of_large_texts() {
    let (mut cross, mut random) = (Cross::default(), Random::seeded(411));
    let stores: Vec<Vec<u8>> = (0..1000).map(|command| store(command % 64, 380, random.below(381))).collect();
    let groups: Vec<Vec<u16>> = (0..64).map(|_| random.group(20)).collect();
    for sheet in [sheet(&groups, &stores), random_sheet(&mut random, 40, 300)] {
        work_in(&mut cross, &sheet, about);
    }
    cross.met(&[0, 2]);
}
