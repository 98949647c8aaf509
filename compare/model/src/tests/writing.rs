//! Held sheets written: the example, each refusal and which is met first, what no sheet of bytes holds, and what is read again.

use super::permutation;
use super::sheets::{longest_sheet, EXAMPLE};
use crate::Reason::{self, Fit, Muddle, Paper, Size, Tie};
use crate::{read_sheet, write_sheet, Command, Group, Job, Permutation, Sheet, Zero};

pub(super) fn count_up(group: u8, k: u32) -> Command {
    Command { group, job: Job::CountUp { k } }
}

pub(super) fn rewrite(group: u8, target: Permutation) -> Command {
    Command { group, job: Job::Rewrite { target } }
}

pub(super) fn store(group: u8, m: u64, symbol: u64) -> Command {
    Command { group, job: Job::Store { m, symbol } }
}

pub(super) fn change_zero(group: u8) -> Command {
    Command { group, job: Job::ChangeZero }
}

pub(super) fn sheet(groups: &[&[u16]], commands: &[Command]) -> Sheet {
    Sheet { groups: groups.iter().map(|levels| Group::from_levels(levels)).collect(), commands: commands.to_vec() }
}

/// Document 01's example.
pub(super) fn example() -> Sheet {
    sheet(&[&[3, 1, 2]], &[count_up(0, 4), rewrite(0, permutation(&[3, 1, 2])), store(0, 3, 3)])
}

/// The sheet's bytes, from a lent list of so many. "Bytes past it keep their values", and all do where it is refused.
pub(super) fn written_in(sheet: &Sheet, room: usize) -> Result<Vec<u8>, Reason> {
    let mut out = vec![77; room];
    let length = write_sheet(sheet, &mut out);
    let (bytes, past) = out.split_at(length.unwrap_or(0));
    assert!(past.iter().all(|&byte| byte == 77));
    length.map(|_| bytes.to_vec())
}

pub(super) fn written(sheet: &Sheet) -> Result<Vec<u8>, Reason> {
    written_in(sheet, 24_692)
}

#[test]
fn the_example_in_lent_lists_of_every_length() {
    assert_eq!(read_sheet(&EXAMPLE), Ok(example()));
    for room in 0..EXAMPLE.len() + 9 {
        let expected = if room < EXAMPLE.len() { Err(Paper) } else { Ok(EXAMPLE.to_vec()) };
        assert_eq!(written_in(&example(), room), expected, "{room}");
    }
}

fn target(command: &mut Command) -> &mut Permutation {
    match &mut command.job {
        Job::Rewrite { target } => target,
        _ => panic!("no rewrite"),
    }
}

/// Two groups, then a rewrite on each with a command after it, a change, then the third section, of which the last byte is what paper lacks.
fn whole() -> Sheet {
    let commands = [rewrite(0, permutation(&[3, 1, 2])), count_up(1, 9), rewrite(1, permutation(&[2, 1])), store(0, 6, 5), change_zero(0)];
    let mut whole = sheet(&[&[3, 1, 2], &[7, 9]], &commands);
    whole.groups[1].zero = Zero::New;
    whole
}

/// The reason of a fault, and how to make it.
type Fault = (Reason, fn(&mut Sheet));

/// Faults of that sheet, in its sequence.
const FAULTS: [Fault; 14] = [
    (Reason::Sheet, |sheet| sheet.groups.resize(65, Group::from_levels(&[0, 1]))),
    (Size, |sheet| sheet.groups[0].n = 1),
    (Tie, |sheet| sheet.groups[0].levels[2] = 3),
    (Size, |sheet| sheet.groups[1].n = usize::MAX),
    (Tie, |sheet| sheet.groups[1].levels[0] = 9),
    (Reason::Sheet, |sheet| sheet.commands.resize(1001, count_up(0, 1))),
    (Reason::Sheet, |sheet| sheet.commands[0].group = 2),
    (Fit, |sheet| target(&mut sheet.commands[0]).n = 2),
    (Muddle, |sheet| target(&mut sheet.commands[0]).cells[19] = 1),
    (Reason::Sheet, |sheet| sheet.commands[1].group = 255),
    (Fit, |sheet| target(&mut sheet.commands[2]).n = usize::MAX),
    (Muddle, |sheet| target(&mut sheet.commands[2]).cells[2] = 3),
    (Reason::Sheet, |sheet| sheet.commands[3].group = 2),
    (Reason::Sheet, |sheet| sheet.commands[4].group = 64),
];

/// "The first met in the sheet's sequence", of every choice of these faults; "9 paper [..] comes after all others".
#[test]
fn the_first_fault_met_decides() {
    let length = written(&whole()).unwrap().len();
    for choice in 0..1_u32 << FAULTS.len() {
        let (mut sheet, mut first) = (whole(), None);
        for (_, (reason, fault)) in FAULTS.iter().enumerate().filter(|(place, _)| choice >> place & 1 == 1).rev() {
            fault(&mut sheet);
            first = Some(*reason);
        }
        assert_eq!(written_in(&sheet, length).err(), first, "{choice:b}");
        assert_eq!(written_in(&sheet, length - 1).err(), first.or(Some(Paper)), "{choice:b}");
    }
}

/// The ranges of document 01, at their ends.
#[test]
fn limits() {
    let groups = |count| Sheet { groups: vec![Group::from_levels(&[3, 1, 2]); count], commands: vec![] };
    for (count, expected) in [(0, Some(Reason::Sheet)), (1, None), (64, None), (65, Some(Reason::Sheet)), (257, Some(Reason::Sheet))] {
        assert_eq!(written(&groups(count)).err(), expected, "{count} groups");
    }
    let commands = |count| Sheet { commands: vec![count_up(0, 1); count], ..groups(1) };
    for (count, expected) in [(0, None), (1000, None), (1001, Some(Reason::Sheet)), (65_537, Some(Reason::Sheet))] {
        assert_eq!(written(&commands(count)).err(), expected, "{count} commands");
    }
    let levels: [u16; 20] = std::array::from_fn(|cell| cell as u16);
    for (n, expected) in [(0, Some(Size)), (1, Some(Size)), (2, None), (20, None), (21, Some(Size)), (258, Some(Size)), (usize::MAX, Some(Size))] {
        assert_eq!(written(&Sheet { groups: vec![Group { n, levels, zero: Zero::New }], commands: vec![] }).err(), expected, "{n} cells");
    }
    for (group, expected) in [(0, None), (63, None), (64, Some(Reason::Sheet)), (255, Some(Reason::Sheet))] {
        for command in [count_up(group, 0), store(group, 0, 0), rewrite(group, permutation(&[0, 0, 0])), change_zero(group)] {
            assert_eq!(written(&Sheet { commands: vec![command], ..groups(64) }).err(), expected, "group {group}");
        }
    }
    for n in [0, 1, 2, 4, 20, 21, 259, usize::MAX] {
        let muddled = Permutation { n, cells: [9; 20] };
        assert_eq!(written(&Sheet { commands: vec![rewrite(0, muddled)], ..groups(1) }), Err(Fit), "{n} names");
    }
}

/// Levels past n are not written; names inside n, k, m and s are written as they stand.
#[test]
fn what_is_not_judged() {
    let mut held = example();
    held.groups[0].levels[3..].fill(3);
    assert_eq!(written(&held), Ok(EXAMPLE.to_vec()));
    for names in [[0, 0, 0], [255, 1, 1], [4, 5, 6]] {
        held.commands = vec![rewrite(0, permutation(&names)), count_up(0, u32::MAX), store(0, u64::MAX, u64::MAX), store(0, 0, 1)];
        let bytes = [&[1, 3, 3, 0, 1, 0, 2, 0, 4, 0, 2, 0][..], &names, &[1, 0], &[255; 4], &[3, 0], &[255; 16], &[3, 0], &[0; 8], &[1], &[0; 7]].concat();
        assert_eq!(written(&held), Ok(bytes));
    }
}

/// "An accepted sheet, read and written, must have equal bytes", and is read again as the same groups and commands. Gives how many are accepted that differ from
/// this one in one byte, or in none, for each byte.
fn accepted(sheet: &[u8]) -> usize {
    let mut accepted = 0;
    for (at, value) in (0..sheet.len()).flat_map(|at| (0..=255).map(move |value| (at, value))) {
        let mut bytes = sheet.to_vec();
        bytes[at] = value;
        if let Ok(held) = read_sheet(&bytes) {
            assert_eq!(written(&held).as_deref(), Ok(&bytes[..]));
            accepted += 1;
        }
    }
    accepted
}

#[test]
fn read_and_written() {
    // Six bytes of levels, whose low ones can make a tie with either other level; k, names, m and s, which are free; ten counts, kinds and group numbers.
    let expected = 6 * 256 - 6 + 23 * 256 + 10;
    assert_eq!(accepted(&EXAMPLE), expected);
    // The count and the number of the third section, each in one way.
    assert_eq!(accepted(&[&EXAMPLE[..], &[1, 0]].concat()), expected + 2);
    // A change before and one after, the kind and the group number of each in one way. With its kind as 4 the store is a change too, and its m, s and the last change
    // are a store.
    let changes = [&EXAMPLE[..8], &[5, 0, 4, 0], &EXAMPLE[10..], &[4, 0]].concat();
    assert_eq!(accepted(&changes), expected + 4 + 1);
    assert_eq!(accepted(&[&changes[..], &[1, 0]].concat()), expected + 4 + 1 + 2);
}

/// "Writing takes kind 4 as well": "a group byte and nothing more". In lent lists of every length; and read again, with "an early end, or bytes after".
#[test]
fn changes() {
    let held = sheet(&[&[7, 9], &[3, 1, 2]], &[change_zero(1), count_up(0, 1), change_zero(0), change_zero(1)]);
    let bytes = [&[2, 2, 7, 0, 9, 0, 3, 3, 0, 1, 0, 2, 0][..], &[4, 0], &[4, 1], &[1, 0, 1, 0, 0, 0], &[4, 0], &[4, 1]].concat();
    for room in 0..bytes.len() + 9 {
        assert_eq!(written_in(&held, room), if room < bytes.len() { Err(Paper) } else { Ok(bytes.clone()) }, "{room}");
    }
    for end in 0..bytes.len() {
        assert_eq!(read_sheet(&bytes[..end]), Err(Reason::Sheet), "{end}");
    }
    for after in 0..=255 {
        assert_eq!(read_sheet(&[&bytes[..], &[after]].concat()), Err(Reason::Sheet), "{after}");
    }
    assert_eq!(read_sheet(&bytes), Ok(held));
}

#[test]
fn longest() {
    let bytes = longest_sheet();
    let held = read_sheet(&bytes).unwrap();
    assert_eq!(written(&held), Ok(bytes));
    assert_eq!(written_in(&held, 24_691), Err(Paper));
}
