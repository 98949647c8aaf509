//! Change over in the cellar: document 02, request 8.

use super::sheets::{text, EXAMPLE};
use super::writing::{change_zero, count_up, example, rewrite, sheet, store, written};
use super::{levels, lists, permutation, permutations, Numbers};
use crate::permutations::factorial;
use crate::text::perform;
use crate::{rank, read, read_sheet, unrank, value, Command, Group, Job, Sheet, Spent, Zero};
use Zero::{New, Old};

/// The rank of [1,2,...,n].
fn rank_of_rising(n: usize) -> u64 {
    rank(&permutation(&(1..=n as u8).collect::<Vec<_>>())).unwrap()
}

/// From [1,3,2], rank 0, to [3,2,1], rank 2. "Kind 4, with a group byte and nothing more, does so, and its line shows 0 pushes."
#[test]
fn between_two_counts() {
    let (group, count) = ([1, 3, 3, 0, 1, 0, 2, 0], [1, 0, 1, 0, 0, 0]);
    let [without, with] = [[&group[..], &[2, 0], &count, &count].concat(), [&group[..], &[3, 0], &count, &[4, 0], &count].concat()];
    assert_eq!(text(&without), "c 1 0 1\nc 2 0 1\ng 0 2 3 4 5\n");
    assert_eq!(text(&with), "c 1 0 1\nc 2 0 0\nc 3 0 1\ng 0 4 3 4 5\n");
}

/// Request 7: "[1,2,3,4] is 10 on the old and 0 on the new, and [1,3,2] is 0 and 2." Of these groups any are changed.
#[test]
fn the_values_of_request_7() {
    let groups = [2, 4, 4, 0, 3, 0, 2, 0, 1, 0, 3, 3, 0, 1, 0, 2, 0];
    let table: [(&[u8], &str, [u64; 2]); 5] = [
        (&[0, 0], "", [10, 0]),
        (&[1, 0, 4, 0], "c 1 0 0\n", [0, 0]),
        (&[1, 0, 4, 1], "c 1 0 0\n", [10, 2]),
        (&[2, 0, 4, 0, 4, 1], "c 1 0 0\nc 2 0 0\n", [0, 2]),
        (&[2, 0, 4, 1, 4, 0], "c 1 0 0\nc 2 0 0\n", [0, 2]),
    ];
    for (commands, answers, [four, three]) in table {
        let bytes = [&groups[..], commands].concat();
        assert_eq!(text(&bytes), format!("{answers}g 0 {four} 4 3 2 1\ng 1 {three} 3 1 2\n"));
    }
}

/// Document 01's example with a change before each of its commands and after the last, once and twice, and with its group on either zero. Rank 5 is 1 on the new one.
#[test]
fn the_example_with_a_change() {
    let ends = [8 + 2, 8 + 2 + 6, 8 + 2 + 11, EXAMPLE.len()];
    let answers = ["0 4", "0 1", "5 0"];
    for (before, end) in ends.into_iter().enumerate() {
        for (times, section) in [(1, &[][..]), (2, &[]), (1, &[1, 0]), (2, &[1, 0])] {
            let mut bytes = [&EXAMPLE[..end], &[4, 0].repeat(times), &EXAMPLE[end..], section].concat();
            bytes[8] += times as u8;
            let lines = [&answers[..before], &vec!["0 0"; times], &answers[before..]].concat();
            let lines: String = (1..).zip(lines).map(|(place, answer)| format!("c {place} {answer}\n")).collect();
            assert_eq!(text(&bytes), lines + "g 0 1 7 6 8\n", "before command {before}, {times} times, {section:?}");
        }
    }
}

/// "On a group already there it is done and alters nothing": named in the third section, or changed before.
#[test]
fn on_a_group_already_there() {
    for names in (2..=4).flat_map(permutations) {
        for zero in [Old, New] {
            let mut group = Group { zero, ..Group::from_levels(&levels(&names, 65_535, 7)) };
            let there = Group { zero: New, ..group };
            for _ in 0..3 {
                assert_eq!((perform(&mut group, &Job::ChangeZero), group), (Ok(Spent { pushes: 0, charge: 0 }), there));
            }
        }
    }
}

/// "From the old zero, counting k after the change gives the order and levels that k without it gives; only the value differs, by the rank of [1,2,...,n] modulo
/// n!."
fn check_count(start: &Group, k: u32) {
    let (mut without, mut with, count) = (*start, *start, Job::CountUp { k });
    assert_eq!(perform(&mut with, &Job::ChangeZero), Ok(Spent::default()));
    assert_eq!(perform(&mut with, &count), perform(&mut without, &count), "{k} on {start:?}");
    assert_eq!(with, Group { zero: New, ..without }, "{k} on {start:?}");
    let (order, round) = (read(without.charge()).unwrap(), factorial(start.n));
    let [old, new] = [without, with].map(|group| value(&order, group.zero).unwrap());
    assert_eq!((new + rank_of_rising(start.n)) % round, old, "{k} on {start:?}");
}

/// All orders of up to five cells, through a whole round and past it.
#[test]
fn every_count_after_a_change() {
    for names in (2..=5).flat_map(permutations) {
        let start = Group::from_levels(&levels(&names, 900, 3));
        (0..=factorial(names.len()) as u32 + 1).for_each(|k| check_count(&start, k));
    }
}

/// Groups of every size, from the old zero's order and from others; counts to the ceiling and past it.
#[test]
fn counts_after_a_change_of_every_size() {
    for n in 2..=20 {
        for from in [0, 1, factorial(n) / 2, rank_of_rising(n), factorial(n) - 1] {
            let start = Group::from_levels(&levels(&unrank(n, from).unwrap().cells[..n], 64_535, 5));
            [0, 1, 2, 999, 1000, 1001, u32::MAX].into_iter().for_each(|k| check_count(&start, k));
        }
    }
}

/// What a sheet's text says: of each command its number and pushes, of each group its value and levels.
fn worked(sheet: &Sheet) -> (Vec<Vec<u64>>, Vec<Vec<u64>>) {
    let text = text(&written(sheet).unwrap());
    let rows = |mark: char, first: u64| {
        let lines = text.lines().filter_map(|line| line.strip_prefix(mark));
        let fields = lines.map(|line| line.split(' ').skip(1).map(|field| field.parse().unwrap()).collect::<Vec<u64>>());
        let (places, rows): (Vec<u64>, Vec<Vec<u64>>) = fields.map(|fields| (fields[0], fields[1..].to_vec())).unzip();
        assert!(places.into_iter().eq((first..).take(rows.len())));
        rows
    };
    let (answers, groups) = (rows('c', 1), rows('g', 0));
    assert_eq!((answers.len(), groups.len()), (sheet.commands.len(), sheet.groups.len()));
    (answers, groups)
}

/// The zero on which the commands leave a group.
fn zero_left(sheet: &Sheet, number: usize) -> Zero {
    let changed = sheet.commands.contains(&change_zero(number as u8));
    if changed {
        New
    } else {
        sheet.groups[number].zero
    }
}

/// With a change of a group put at a place, it is done with 0 pushes, and the others are answered as without it. All levels are the same. The value of its group
/// differs by the rank of [1,2,...,n] modulo n! where the group would be left on the old zero; all other values are the same.
fn check_change(sheet: &Sheet, place: usize, group: u8) {
    let mut changed = sheet.clone();
    changed.commands.insert(place, change_zero(group));
    let ((answers, groups), (changed_answers, changed_groups)) = (worked(sheet), worked(&changed));
    let expected = [&answers[..place], &[vec![0, 0]], &answers[place..]].concat();
    assert_eq!(changed_answers, expected, "group {group} changed at {place} of {sheet:?}");
    for (number, (without, with)) in groups.iter().zip(changed_groups).enumerate() {
        let n = without.len() - 1;
        let levels: Vec<u16> = without[1..].iter().map(|&level| level as u16).collect();
        assert_eq!(value(&read(&levels).unwrap(), zero_left(sheet, number)), Ok(without[0]), "group {number} of {sheet:?}");
        let moved = number == usize::from(group) && zero_left(sheet, number) == Old;
        let less = if moved { rank_of_rising(n) } else { 0 };
        let value = (without[0] + factorial(n) - less) % factorial(n);
        assert_eq!(with, [&[value], &without[1..]].concat(), "group {number}, {group} changed at {place} of {sheet:?}");
    }
}

/// The same with every group changed, at every place. A sheet with changes is read again as the same, and its bytes, read and written, are equal.
fn check_changes(sheet: &Sheet) {
    let bytes = written(sheet).unwrap();
    let again = read_sheet(&bytes).unwrap();
    assert_eq!((&again, written(&again)), (sheet, Ok(bytes)));
    for place in 0..=sheet.commands.len() {
        (0..sheet.groups.len()).for_each(|group| check_change(sheet, place, group as u8));
    }
}

/// A command of each kind on a group of three cells, done or, but for a change, refused.
fn small_commands(group: u8) -> [Command; 7] {
    let (done, muddled) = (permutation(&[3, 1, 2]), permutation(&[3, 1, 1]));
    [count_up(group, 1), count_up(group, u32::MAX), rewrite(group, done), rewrite(group, muddled), store(group, 3, 1), store(group, 3, 3), change_zero(group)]
}

/// Each order of three cells on each zero, with up to three of those commands.
#[test]
fn every_small_sheet_of_one_group() {
    let lists: Vec<Vec<Command>> = (0..=3).flat_map(|length| lists(&small_commands(0), length)).collect();
    for (names, zero) in permutations(3).into_iter().flat_map(|names| [(names.clone(), Old), (names, New)]) {
        for commands in &lists {
            let mut held = sheet(&[&levels(&names, 65_532, 2)], commands);
            held.groups[0].zero = zero;
            check_changes(&held);
        }
    }
}

/// Two groups on any zeros, with up to two of those commands.
#[test]
fn every_small_sheet_of_two_groups() {
    let commands = [small_commands(0), small_commands(1)].concat();
    let lists: Vec<Vec<Command>> = (0..=2).flat_map(|length| lists(&commands, length)).collect();
    for (one, other) in [(Old, Old), (Old, New), (New, Old), (New, New)] {
        for commands in &lists {
            let mut held = sheet(&[&[3, 1, 2], &[4, 65_534, 9]], commands);
            (held.groups[0].zero, held.groups[1].zero) = (one, other);
            check_changes(&held);
        }
    }
}

impl Numbers {
    fn group(&mut self) -> Group {
        let n = 2 + self.below(19) as usize;
        let names = unrank(n, self.below(factorial(n))).unwrap().cells;
        let (gap, top) = (1 + self.below(100) as u16, 65_535 - self.below(100) as u16);
        Group { zero: if self.below(3) == 0 { New } else { Old }, ..Group::from_levels(&levels(&names[..n], top, gap)) }
    }

    /// On a group of n cells, done or refused.
    fn command(&mut self, group: u8, n: usize) -> Command {
        let m = self.below(factorial(n).min(500) + 2);
        match self.below(5) {
            0 => count_up(group, self.below(60) as u32),
            1 => rewrite(group, unrank(n, self.below(factorial(n))).unwrap()),
            2 => rewrite(group, permutation(&(0..n).map(|_| self.below(n as u64 + 1) as u8).collect::<Vec<_>>())),
            3 => store(group, m, self.below(m + 1)),
            _ => change_zero(group),
        }
    }

    fn sheet(&mut self) -> Sheet {
        let groups: Vec<Group> = (0..=self.below(5)).map(|_| self.group()).collect();
        let numbers: Vec<usize> = (0..self.below(9)).map(|_| self.below(groups.len() as u64) as usize).collect();
        let commands = numbers.into_iter().map(|number| self.command(number as u8, groups[number].n)).collect();
        Sheet { groups, commands }
    }
}

/// Groups of any size near the ceiling.
#[test]
fn many_sheets() {
    let mut numbers = Numbers(8);
    (0..1000).for_each(|_| check_changes(&numbers.sheet()));
}

/// As many commands as a sheet has, all of them changes, of groups by turns; the section names no group, every other or all.
#[test]
fn a_thousand_changes() {
    for (groups, zeros) in [(1, [Old, Old]), (64, [Old, Old]), (64, [Old, New]), (64, [New, New])] {
        let row: Vec<Group> = (0..groups).map(|number| Group { zero: zeros[number % 2], ..Group::from_levels(&[9, 7, 5, 3]) }).collect();
        let held = Sheet { groups: row, commands: (0..1000).map(|place| change_zero((place % groups) as u8)).collect() };
        let (answers, values) = worked(&held);
        assert_eq!(answers, vec![vec![0, 0]; 1000]);
        assert_eq!(values, vec![vec![0, 9, 7, 5, 3]; groups]);
        assert_eq!(read_sheet(&written(&held).unwrap()), Ok(held));
    }
}

/// Two cells have one zero order, [1,2], whose rank is 0, so that a change alters no value of theirs.
#[test]
fn two_cells() {
    assert_eq!(rank_of_rising(2), 0);
    for (group, k) in [[3, 1], [1, 3]].into_iter().flat_map(|group| (0..5).map(move |k| (group, k))) {
        let [without, with] = [vec![count_up(0, k)], vec![change_zero(0), count_up(0, k)]].map(|commands| worked(&sheet(&[&group], &commands)));
        assert_eq!(with.1, without.1);
    }
}

/// The section of a written sheet has the zeros on which the groups start, whatever the commands do.
#[test]
fn the_section_has_the_first_zeros() {
    let mut held = example();
    held.commands.push(change_zero(0));
    let mut bytes = [&EXAMPLE[..], &[4, 0]].concat();
    bytes[8] = 4;
    assert_eq!((written(&held), read_sheet(&bytes).as_ref()), (Ok(bytes.clone()), Ok(&held)));
    held.groups[0].zero = New;
    bytes.extend([1, 0]);
    assert_eq!((written(&held), read_sheet(&bytes).as_ref()), (Ok(bytes.clone()), Ok(&held)));
}
