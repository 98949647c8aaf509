//! A bench sheet, from its bytes.

use crate::levels::names_by_level;
use crate::permutations::Permutation;
use crate::reason::{check_size, refuse_if, Reason};
use crate::sheet::{check_commands, check_groups, check_new_zeros, group_of, Command, Group, Job, Sheet};
use crate::zero::Zero;

/// The bytes not yet read.
struct Bytes<'a>(&'a [u8]);

impl<'a> Bytes<'a> {
    /// "An early end"
    fn take(&mut self, count: usize) -> Result<&'a [u8], Reason> {
        refuse_if(self.0.len() < count, Reason::Sheet)?;
        let (taken, rest) = self.0.split_at(count);
        self.0 = rest;
        Ok(taken)
    }

    /// "Low byte first", at most eight bytes.
    fn number(&mut self, width: usize) -> Result<u64, Reason> {
        let bytes = self.take(width)?;
        Ok(bytes.iter().rev().fold(0, |number, &byte| number << 8 | u64::from(byte)))
    }
}

/// "The sheet is checked from its first byte, and the first fault met decides."
pub fn read_sheet(bytes: &[u8]) -> Result<Sheet, Reason> {
    let mut bytes = Bytes(bytes);
    let mut groups = read_groups(&mut bytes)?;
    let commands = read_commands(&mut bytes, &groups)?;
    // "The sheet may end with a third section." "A sheet without it has old zeros only."
    if !bytes.0.is_empty() {
        read_new_zeros(&mut bytes, &mut groups)?;
    }
    // "Bytes after the last of them, is sheet."
    refuse_if(!bytes.0.is_empty(), Reason::Sheet)?;
    Ok(Sheet { groups, commands })
}

/// "Sections in this sequence, each after its count": the groups.
fn read_groups(bytes: &mut Bytes) -> Result<Vec<Group>, Reason> {
    let count = bytes.number(1)? as usize;
    check_groups(count)?;
    (0..count).map(|_| read_group(bytes)).collect()
}

/// "Each has n in one byte, then n levels of two bytes." "Size is judged at the n byte and a tie after the group's last level."
fn read_group(bytes: &mut Bytes) -> Result<Group, Reason> {
    let n = bytes.number(1)? as usize;
    check_size(n)?;
    let levels: Vec<u16> = (0..n).map(|_| Ok(bytes.number(2)? as u16)).collect::<Result<_, Reason>>()?;
    names_by_level(&levels)?;
    Ok(Group::from_levels(&levels))
}

/// The commands, after their count.
fn read_commands(bytes: &mut Bytes, groups: &[Group]) -> Result<Vec<Command>, Reason> {
    let count = bytes.number(2)? as usize;
    check_commands(count)?;
    (0..count).map(|_| read_command(bytes, groups)).collect()
}

/// "The kind byte comes first, then the group byte (0 to G - 1). Kind 1 is count up, with k in four bytes.
/// Kind 2 is rewrite, with n names. Kind 3 is store, with m and s in eight bytes each." Document 02, request 8: "Kind 4, with a group byte and nothing more".
fn read_command(bytes: &mut Bytes, groups: &[Group]) -> Result<Command, Reason> {
    let kind = bytes.number(1)?;
    refuse_if(!(1..=4).contains(&kind), Reason::Sheet)?;
    let group = bytes.number(1)? as u8;
    let n = group_of(groups, group)?.n;
    let job = match kind {
        1 => Job::CountUp { k: bytes.number(4)? as u32 },
        2 => Job::Rewrite { target: Permutation::from_names(bytes.take(n)?) },
        3 => Job::Store { m: bytes.number(8)?, symbol: bytes.number(8)? },
        _ => Job::ChangeZero,
    };
    Ok(Command { group, job })
}

/// Document 02, request 7: "A count in one byte, 1 to G, then the numbers of the groups on the new zero, strictly rising." "A count here outside its range, numbers
/// that don't rise [..] is sheet." Document 01: so is a "group number outside its range".
fn read_new_zeros(bytes: &mut Bytes, groups: &mut [Group]) -> Result<(), Reason> {
    let count = bytes.number(1)? as usize;
    check_new_zeros(count, groups)?;
    let mut last = None;
    for _ in 0..count {
        let number = bytes.number(1)? as u8;
        refuse_if(last.is_some_and(|last| number <= last), Reason::Sheet)?;
        group_of(groups, number)?;
        groups[usize::from(number)].zero = Zero::New;
        last = Some(number);
    }
    Ok(())
}
