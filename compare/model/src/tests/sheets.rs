//! Bench sheets: the example, its faults, and the longest sheet. `zeros` has those with a third section, `changes` those that change a zero.

use crate::bench;

pub(super) const EXAMPLE: [u8; 39] = [1, 3, 3, 0, 1, 0, 2, 0, 3, 0, 1, 0, 4, 0, 0, 0, 2, 0, 3, 1, 2, 3, 0, 3, 0, 0, 0, 0, 0, 0, 0, 3, 0, 0, 0, 0, 0, 0, 0];

pub(super) fn text(sheet: &[u8]) -> String {
    String::from_utf8(bench(sheet)).unwrap()
}

#[test]
fn example() {
    assert_eq!(text(&EXAMPLE), "c 1 0 4\nc 2 0 1\nc 3 5 0\ng 0 5 7 6 8\n");
    for end in 0..EXAMPLE.len() {
        assert_eq!(text(&EXAMPLE[..end]), "s 8\n", "{end}");
    }
    assert_eq!(text(&[&EXAMPLE[..], &[0]].concat()), "s 8\n");
}

/// The first fault met decides.
#[test]
fn faults() {
    let table: [(&[u8], u8); 21] = [
        (&[0], 8),
        (&[65, 1], 8),
        (&[1, 0], 1),
        (&[1, 1], 1),
        (&[1, 21], 1),
        (&[1, 255, 0], 1),
        (&[1, 2, 7, 0, 7], 8),
        (&[1, 2, 7, 0, 7, 0], 4),
        (&[2, 2, 7, 0, 7, 0, 1], 4),
        (&[2, 2, 7, 0, 7, 1, 1], 1),
        (&[2, 2, 7, 0, 7, 1, 2, 5, 5, 5, 5, 0, 0], 4),
        (&[1, 2, 7, 0, 7, 1, 233, 3], 8),
        (&[1, 2, 7, 0, 7, 1, 1, 0, 0, 0, 0, 0, 0, 0], 8),
        (&[1, 2, 7, 0, 7, 1, 1, 0, 5, 0, 0, 0, 0, 0], 8),
        (&[1, 2, 7, 0, 7, 1, 1, 0, 4], 8),
        (&[1, 2, 7, 0, 7, 1, 1, 0, 4, 1], 8),
        (&[1, 2, 7, 0, 7, 1, 1, 0, 4, 0, 0], 8),
        (&[1, 2, 7, 0, 7, 1, 2, 0, 4, 0], 8),
        (&[1, 2, 7, 0, 7, 1, 1, 0, 1, 1, 0, 0, 0, 0], 8),
        (&[1, 2, 7, 0, 7, 1, 1, 0, 1, 255, 0, 0, 0, 0], 8),
        (&[1, 2, 7, 0, 7, 1, 0, 0, 0], 8),
    ];
    for (sheet, number) in table {
        assert_eq!(text(sheet), format!("s {number}\n"), "{sheet:?}");
    }
    assert_eq!(text(&[1, 2, 7, 0, 7, 1, 0, 0]), "g 0 1 7 263\n");
    assert_eq!(text(&[1, 2, 7, 0, 7, 1, 1, 0, 4, 0]), "c 1 0 0\ng 0 1 7 263\n");
}

/// Each command is done or refused by itself: muddle, ceiling twice and value on group 1, then one that is done on group 0.
#[test]
fn refused_commands() {
    let sheet: [&[u8]; 7] = [
        &[2, 2, 0, 0, 1, 0, 2, 255, 255, 254, 255],
        &[5, 0],
        &[2, 1, 2, 2],
        &[2, 1, 2, 1],
        &[1, 1, 255, 255, 255, 255],
        &[3, 1, 2, 0, 0, 0, 0, 0, 0, 0, 2, 0, 0, 0, 0, 0, 0, 0],
        &[3, 0, 1, 0, 0, 0, 0, 0, 0, 0, 0, 0, 0, 0, 0, 0, 0, 0],
    ];
    let expected = "c 1 3 0\nc 2 6 0\nc 3 6 0\nc 4 5 0\nc 5 0 0\ng 0 1 0 1\ng 1 0 65535 65534\n";
    assert_eq!(text(&sheet.concat()), expected);
}

/// A whole sheet of groups with 20 cells and commands which rewrite them by turns.
pub(super) fn whole_sheet(groups: u8, commands: u16) -> Vec<u8> {
    let mut sheet = vec![groups];
    for group in 0..groups {
        sheet.push(20);
        sheet.extend((0..20).flat_map(|cell| [cell, group]));
    }
    sheet.extend(commands.to_le_bytes());
    for command in 0..commands {
        sheet.extend([2, (command % u16::from(groups)) as u8]);
        sheet.extend((0..20).map(|place| (place + (command % 7) as u8) % 20 + 1));
    }
    sheet
}

/// "The longest sheet has 24,627 bytes", and "becomes 24,692 bytes".
pub(super) fn longest_sheet() -> Vec<u8> {
    let mut sheet = whole_sheet(64, 1000);
    assert_eq!(sheet.len(), 24_627);
    sheet.push(64);
    sheet.extend(0..64);
    sheet
}

#[test]
fn longest() {
    let sheet = longest_sheet();
    assert_eq!(sheet.len(), 24_692);
    assert_eq!(text(&[&sheet[..], &[64]].concat()), "s 8\n");
    let text = text(&sheet);
    assert_eq!(text.lines().count(), 1064);
    assert!(text.lines().take(1000).all(|line| line.split(' ').nth(2) == Some("0")));
    let mut groups = text.lines().skip(1000).enumerate();
    assert!(groups.all(|(group, line)| line.starts_with(&format!("g {group} "))));
}

/// Sheets whose only fault is a count outside its range.
#[test]
fn out_of_range() {
    for (groups, commands) in [(0, 0), (65, 0), (64, 1001)] {
        assert_eq!(text(&whole_sheet(groups, commands)), "s 8\n", "{groups} {commands}");
    }
}

/// Every kind, with zeros after the group byte: as many as it has, here of two cells, or it is a fault. Kinds 0, and 5 and above, are no kinds.
#[test]
fn kinds() {
    for (kind, width) in (0..=255).flat_map(|kind| (0..=20).map(move |width| (kind, width))) {
        let expected = match (kind, width) {
            (1, 4) | (4, 0) => "c 1 0 0\ng 0 1 7 263\n",
            (2, 2) => "c 1 3 0\ng 0 1 7 263\n",
            (3, 16) => "c 1 5 0\ng 0 1 7 263\n",
            _ => "s 8\n",
        };
        let command = [&[1, 2, 7, 0, 7, 1, 1, 0, kind, 0][..], &vec![0; width]].concat();
        assert_eq!(text(&command), expected, "{kind} {width}");
    }
}
