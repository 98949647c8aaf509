//! The maker's new zero: document 02, request 7.

use super::sheets::{longest_sheet, text, whole_sheet, EXAMPLE};
use super::writing::{example, sheet, written, written_in};
use super::{levels, permutation, permutations, pushed};
use crate::permutations::factorial;
use crate::zero::{permutation_from, value_from};
use crate::Reason::{self, Muddle, Paper, Size, Value};
use crate::{
    count_up, permutation_by_number, permutation_of_value, rank, read, read_sheet, successor, unrank, value, value_by_number, Permutation, Sheet, Spent, Zero,
};
use std::collections::BTreeMap;
use Zero::{New, Old};

const FACTORIAL_20: u64 = 2_432_902_008_176_640_000;

/// "[1,2,3,4] is 10 on the old and 0 on the new, and [1,3,2] is 0 and 2."
#[test]
fn the_examples() {
    let table: [(&[u8], u64, u64); 2] = [(&[1, 2, 3, 4], 10, 0), (&[1, 3, 2], 0, 2)];
    for (names, old, new) in table {
        for (zero, expected) in [(Old, old), (New, new)] {
            assert_eq!(value(&permutation(names), zero), Ok(expected), "{names:?} {zero:?}");
            assert_eq!(permutation_of_value(names.len(), expected, zero), Ok(permutation(names)));
        }
    }
}

/// "Modules already in cellars keep the special order that document 01 starts from": document 001, section III-C, has it as [1,n,n-2,...,n-3,n-1]. "The count starts
/// at the order [1,2,...,n]." So the value on the old zero is the rank.
#[test]
fn the_zero_orders() {
    for n in 2..=20_u8 {
        let downward = (2..=n).rev().step_by(2);
        let upward = (2..n).rev().step_by(2).collect::<Vec<_>>().into_iter().rev();
        let special: Vec<u8> = [1].into_iter().chain(downward).chain(upward).collect();
        let rising: Vec<u8> = (1..=n).collect();
        for (zero, names) in [(Old, &special), (New, &rising)] {
            assert_eq!(value(&permutation(names), zero), Ok(0), "{n} {zero:?}");
            assert_eq!(permutation_of_value(n.into(), 0, zero), Ok(permutation(names)));
        }
        assert_eq!(value(&permutation(&rising), Old), rank(&permutation(&rising)));
    }
    for names in (2..=6).flat_map(permutations) {
        assert_eq!(value(&permutation(&names), Old), rank(&permutation(&names)));
    }
}

/// The order after one step.
fn stepped(names: &[u8]) -> Vec<u8> {
    pushed(names, successor(&permutation(names)).unwrap().place)
}

/// "Any k steps add k to the value modulo n!, and each value from 0 to n! - 1 belongs to exactly one order of n cells; both are shown for a zero of any order."
#[test]
fn a_zero_of_any_order() {
    for n in 2..=5 {
        let all = permutations(n);
        let round = all.len() as u64;
        let next: BTreeMap<&[u8], Vec<u8>> = all.iter().map(|names| (&names[..], stepped(names))).collect();
        for zero in &all {
            let values: BTreeMap<&[u8], u64> = all.iter().map(|names| (&names[..], value_from(zero, names))).collect();
            let mut sorted: Vec<u64> = values.values().copied().collect();
            sorted.sort_unstable();
            assert!(sorted.into_iter().eq(0..round), "each value once, from {zero:?}");
            assert!(values.iter().all(|(names, &value)| permutation_from(zero, value) == permutation(names)));
            for start in &all {
                let mut names = &start[..];
                for k in 0..=round + 1 {
                    assert_eq!(values[names], (values[&start[..]] + k) % round, "{k} steps from {start:?}, zero {zero:?}");
                    names = &next[names];
                }
            }
        }
    }
}

/// "Used for these two": the order of a value is the one that so many steps from the zero order lead to.
#[test]
fn values_count_steps_from_the_zero() {
    for n in 2..=7 {
        for (number, zero) in [(0, Old), (1, New)] {
            let mut names = if zero == New { (1..=n as u8).collect() } else { unrank(n, 0).unwrap().cells[..n].to_vec() };
            for steps in 0..permutations(n).len() as u64 {
                assert_eq!(value(&permutation(&names), zero), Ok(steps));
                assert_eq!(value_by_number(&permutation(&names), number), Ok(steps));
                assert_eq!(permutation_of_value(n, steps, zero), Ok(permutation(&names)));
                assert_eq!(permutation_by_number(n, steps, number), Ok(permutation(&names)));
                names = stepped(&names);
            }
            assert_eq!(value(&permutation(&names), zero), Ok(0));
        }
    }
}

/// Twenty cells: steps about the zero orders and about the end of the round, where the value falls from 20! - 1 to 0.
#[test]
fn the_round_of_twenty_cells() {
    for (zero, start) in [Old, New].into_iter().flat_map(|zero| [0, 1, FACTORIAL_20 / 2, FACTORIAL_20 - 300].map(|start| (zero, start))) {
        let mut here = permutation_of_value(20, start, zero).unwrap();
        for k in 0..600 {
            let expected = (start + k) % FACTORIAL_20;
            assert_eq!(value(&here, zero), Ok(expected));
            assert_eq!(permutation_of_value(20, expected, zero), Ok(here));
            here = permutation(&stepped(&here.cells));
        }
    }
    let last = permutation_of_value(20, FACTORIAL_20 - 1, New).unwrap();
    assert_eq!(stepped(&last.cells), (1..=20).collect::<Vec<u8>>());
}

/// Document 01, "runs of steps", of values: after calls with K steps in all, the value is the start's plus K, modulo n!. A call that is refused adds nothing.
#[test]
fn calls_add_their_steps_to_the_value() {
    for n in 2..=20 {
        for zero in [Old, New] {
            let mut group: Vec<u16> = (0..n as u16).map(|cell| cell * 7 % 23 * 100).collect();
            let start = value(&read(&group).unwrap(), zero).unwrap();
            let mut total = 0;
            for (k, done) in [(1, true), (0, true), (65_535, false), (23, true), (997, true), (u32::MAX, false), (5, true)] {
                assert_eq!(count_up(&mut group, k).map(|Spent { pushes, .. }| pushes), if done { Ok(k) } else { Err(Reason::Ceiling) });
                total += if done { u64::from(k) } else { 0 };
                assert_eq!(value(&read(&group).unwrap(), zero), Ok((start + total) % factorial(n)), "{n} {zero:?} {k}");
            }
        }
    }
}

/// Size and muddle of the record, then value where the zero is neither.
#[test]
fn refusals_of_a_value() {
    let table = [
        (Permutation { n: 1, ..permutation(&[1]) }, Some(Size)),
        (Permutation { n: 21, ..permutation(&[1, 1]) }, Some(Size)),
        (Permutation { n: usize::MAX, cells: [255; 20] }, Some(Size)),
        (permutation(&[1, 1]), Some(Muddle)),
        (Permutation { n: 2, ..permutation(&[1, 2, 3]) }, Some(Muddle)),
        (Permutation { n: 3, ..permutation(&[1, 2]) }, Some(Muddle)),
        (permutation(&[2, 1]), None),
        (permutation(&(1..=20).collect::<Vec<_>>()), None),
    ];
    for (record, expected) in table {
        for (number, zero) in [(0, Old), (1, New)] {
            assert_eq!(value(&record, zero).err(), expected, "{record:?}");
            assert_eq!(value_by_number(&record, number).err(), expected, "{record:?}");
        }
        for number in 2..=255 {
            assert_eq!(value_by_number(&record, number).err(), expected.or(Some(Value)), "{record:?} {number}");
        }
    }
}

/// Size, then value: of the value, and of a zero that is neither.
#[test]
fn refusals_of_the_permutation_of_a_value() {
    let table = [
        (0, 0, Some(Size)),
        (1, 0, Some(Size)),
        (1, 1, Some(Size)),
        (21, u64::MAX, Some(Size)),
        (usize::MAX, 0, Some(Size)),
        (2, 1, None),
        (2, 2, Some(Value)),
        (3, 5, None),
        (3, 6, Some(Value)),
        (3, u64::MAX, Some(Value)),
        (20, FACTORIAL_20 - 1, None),
        (20, FACTORIAL_20, Some(Value)),
        (20, u64::MAX, Some(Value)),
    ];
    for (n, number, expected) in table {
        for (zero, by_number) in [(Old, 0), (New, 1)] {
            assert_eq!(permutation_of_value(n, number, zero).err(), expected, "{n} {number}");
            assert_eq!(permutation_by_number(n, number, by_number).err(), expected, "{n} {number}");
        }
        for zero in 2..=255 {
            assert_eq!(permutation_by_number(n, number, zero).err(), expected.or(Some(Value)), "{n} {number} {zero}");
        }
    }
}

/// "The g line prints the value": rank 5 is 1 on the new zero, as [1,2,3] has rank 4.
#[test]
fn the_example_on_the_new_zero() {
    let bytes = [&EXAMPLE[..], &[1, 0]].concat();
    assert_eq!(text(&bytes), "c 1 0 4\nc 2 0 1\nc 3 5 0\ng 0 1 7 6 8\n");
    let mut held = example();
    held.groups[0].zero = New;
    assert_eq!(read_sheet(&bytes).as_ref(), Ok(&held));
    for room in 0..bytes.len() + 9 {
        assert_eq!(written_in(&held, room), if room < bytes.len() { Err(Paper) } else { Ok(bytes.clone()) }, "{room}");
    }
}

/// Both of the document's orders, on each zero, on one sheet; then with a command on each, after which the value is the one more.
#[test]
fn both_zeros_on_one_sheet() {
    let groups = [&[4][..], &[4, 4, 0, 3, 0, 2, 0, 1, 0], &[4, 4, 0, 3, 0, 2, 0, 1, 0], &[3, 3, 0, 1, 0, 2, 0], &[3, 3, 0, 1, 0, 2, 0]].concat();
    let bytes = [&groups[..], &[0, 0], &[2, 1, 3]].concat();
    assert_eq!(text(&bytes), "g 0 10 4 3 2 1\ng 1 0 4 3 2 1\ng 2 0 3 1 2\ng 3 2 3 1 2\n");
    let counts: Vec<u8> = (0..4).flat_map(|group| [1, group, 1, 0, 0, 0]).collect();
    let bytes = [&groups[..], &[4, 0], &counts, &[2, 1, 3]].concat();
    assert_eq!(text(&bytes), "c 1 0 1\nc 2 0 1\nc 3 0 1\nc 4 0 1\ng 0 11 4 3 2 5\ng 1 1 4 3 2 5\ng 2 1 3 4 2\ng 3 3 3 4 2\n");
}

/// A sheet of three groups, without the third section.
fn three_groups(commands: &[u8]) -> Vec<u8> {
    [&[3, 2, 7, 0, 9, 0, 3, 3, 0, 1, 0, 2, 0, 2, 0, 0, 1, 0][..], commands].concat()
}

/// Every row of at most five bytes out of these, after a sheet of three groups: a section is a count and as many of the numbers 0, 1, 2, rising. Nothing else is taken.
#[test]
fn every_third_section_of_three_groups() {
    let sections: [&[u8]; 8] = [&[], &[1, 0], &[1, 1], &[1, 2], &[2, 0, 1], &[2, 0, 2], &[2, 1, 2], &[3, 0, 1, 2]];
    for before in [three_groups(&[0, 0]), three_groups(&[1, 0, 1, 2, 4, 0, 0, 0])] {
        let mut rows = vec![vec![]];
        for _ in 0..=5 {
            for row in &rows {
                let bytes = [&before[..], row].concat();
                let Ok(held) = read_sheet(&bytes) else {
                    assert_eq!(read_sheet(&bytes), Err(Reason::Sheet), "{row:?}");
                    assert!(!sections.contains(&&row[..]), "{row:?}");
                    continue;
                };
                assert!(sections.contains(&&row[..]), "{row:?}");
                let zeros: Vec<Zero> = (0..3).map(|number| if row.iter().skip(1).any(|&new| new == number) { New } else { Old }).collect();
                assert!(held.groups.iter().map(|group| group.zero).eq(zeros), "{row:?}");
                assert_eq!(written(&held), Ok(bytes));
            }
            rows = rows.iter().flat_map(|row| [0, 1, 2, 3, 4, 5, 255].map(|byte| [&row[..], &[byte]].concat())).collect();
        }
    }
}

/// A count or a number with each value that a byte has, of one group, three and 64.
#[test]
fn every_byte_of_a_third_section() {
    for (groups, section) in [(1, vec![1, 0]), (3, vec![2, 0, 2]), (64, vec![3, 5, 40, 60]), (64, [64].into_iter().chain(0..64).collect())] {
        let before = whole_sheet(groups, 0);
        for (at, byte) in (0..section.len()).flat_map(|at| (0..=255).map(move |byte| (at, byte))) {
            let mut section = section.clone();
            section[at] = byte;
            let (count, numbers) = (usize::from(section[0]), &section[1..]);
            let good = count == numbers.len() && numbers.windows(2).all(|pair| pair[0] < pair[1]) && numbers.iter().all(|&number| number < groups);
            let bytes = [&before[..], &section].concat();
            let held = read_sheet(&bytes);
            assert_eq!(held.as_ref().err(), if good { None } else { Some(&Reason::Sheet) }, "{groups} groups, {section:?}");
            assert!(held.is_err() || written(&held.unwrap()) == Ok(bytes));
        }
    }
}

/// "An early end", and "bytes after the last of them": of the longest sheet, at every byte of its third section, whose absence alone is no fault.
#[test]
fn ends_of_the_third_section() {
    let longest = longest_sheet();
    for end in 24_626..longest.len() {
        assert_eq!(read_sheet(&longest[..end]).err(), if end == 24_627 { None } else { Some(Reason::Sheet) }, "{end}");
    }
    for after in [&[0][..], &[63], &[64], &[1, 63], &[1, 0], &longest[24_627..]] {
        assert_eq!(read_sheet(&[&longest[..], after].concat()), Err(Reason::Sheet), "{after:?}");
        assert_eq!(read_sheet(&[&EXAMPLE[..], &[1, 0], after].concat()), Err(Reason::Sheet), "{after:?}");
    }
}

/// A fault before the third section is met before one in it.
#[test]
fn the_third_section_is_read_last() {
    for section in [&[][..], &[0], &[1, 0], &[9, 9]] {
        assert_eq!(read_sheet(&[&[1, 1, 5, 0, 0, 0][..], section].concat()), Err(Size));
        assert_eq!(read_sheet(&[&[1, 2, 5, 0, 5, 0, 0, 0][..], section].concat()), Err(Reason::Tie));
    }
}

/// Six groups, of which any are on the new zero.
fn six_groups(choice: u32) -> Sheet {
    let mut held = sheet(&[&[3, 1, 2], &[7, 9], &[4, 3, 2, 1], &[9, 7], &[0, 65_535], &[1, 2, 3]], &example().commands);
    for (number, group) in held.groups.iter_mut().enumerate() {
        group.zero = if choice >> number & 1 == 1 { New } else { Old };
    }
    held
}

/// "The writer writes the section when a group is on the new zero", and what was written is read again as the same. All else stays as it is.
#[test]
fn every_choice_of_zeros() {
    let without = written(&six_groups(0)).unwrap();
    for choice in 0..64 {
        let held = six_groups(choice);
        let numbers: Vec<u8> = (0..6).filter(|number| choice >> number & 1 == 1).collect();
        let section = if numbers.is_empty() { vec![] } else { [&[numbers.len() as u8][..], &numbers].concat() };
        let bytes = [&without[..], &section].concat();
        assert_eq!(read_sheet(&bytes).as_ref(), Ok(&held));
        for room in without.len()..bytes.len() {
            assert_eq!(written_in(&held, room), Err(Paper), "{choice:b} {room}");
        }
        assert_eq!(written_in(&held, bytes.len() + 3), Ok(bytes), "{choice:b}");
    }
}

/// The zero changes no command's answer and no level; the value is the one on the group's zero, of the order that the levels have.
#[test]
fn only_the_value_differs() {
    let fields = |text: &str| text.lines().map(|line| line.split(' ').map(str::to_owned).collect::<Vec<_>>()).collect::<Vec<_>>();
    let old = fields(&text(&written(&six_groups(0)).unwrap()));
    for choice in 0..64 {
        let new = fields(&text(&written(&six_groups(choice)).unwrap()));
        assert_eq!(new[..3], old[..3]);
        for (number, (new, old)) in new[3..].iter().zip(&old[3..]).enumerate() {
            let levels: Vec<u16> = new[3..].iter().map(|level| level.parse().unwrap()).collect();
            let zero = if choice >> number & 1 == 1 { New } else { Old };
            let printed = value(&read(&levels).unwrap(), zero).unwrap();
            assert_eq!((&new[1], &new[2], &new[3..]), (&number.to_string(), &printed.to_string(), &old[3..]), "{choice:b}");
        }
    }
}

/// The largest values: every g line of 20 cells has them, on a sheet of 64 groups that are all on the new zero.
#[test]
fn values_to_the_last() {
    for (zero, section) in [(New, [64].into_iter().chain(0..64).collect()), (Old, vec![])] {
        let values: Vec<u64> = (0..64).map(|group| if group < 32 { group } else { FACTORIAL_20 - group }).collect();
        let mut bytes = vec![64];
        for &number in &values {
            bytes.push(20);
            let names = permutation_of_value(20, number, zero).unwrap().cells;
            bytes.extend(levels(&names, 65_535, 1).into_iter().flat_map(u16::to_le_bytes));
        }
        bytes.extend([0, 0]);
        bytes.extend(section);
        let text = text(&bytes);
        assert!(text.lines().zip(&values).all(|(line, number)| line.split(' ').nth(2) == Some(&number.to_string())));
        assert_eq!(text.lines().count(), 64);
    }
}
