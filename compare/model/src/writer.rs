//! A bench sheet, to its bytes: document 02, request 2, with request 7 for the third section and request 8 for the fourth kind.

use crate::levels::names_by_level;
use crate::permutations::Permutation;
use crate::reason::{check_size, refuse_if, Reason};
use crate::sheet::{check_commands, check_groups, group_of, Command, Group, Job, Sheet};
use crate::zero::Zero;

/// "From groups and commands held in memory, into a lent list of bytes." "When done, the job gives the sheet's length, and bytes past it keep their values."
/// "9 paper, when the lent list is shorter than the sheet; it comes after all others."
pub fn write_sheet(sheet: &Sheet, out: &mut [u8]) -> Result<usize, Reason> {
    let bytes = spelled(sheet)?;
    out.get_mut(..bytes.len()).ok_or(Reason::Paper)?.copy_from_slice(&bytes);
    Ok(bytes.len())
}

/// "Groups and commands that no sheet could hold are sent back by the number that reading would give, the first met in the sheet's sequence."
fn spelled(sheet: &Sheet) -> Result<Vec<u8>, Reason> {
    let mut bytes = Vec::new();
    check_groups(sheet.groups.len())?;
    bytes.push(sheet.groups.len() as u8);
    for group in &sheet.groups {
        write_group(&mut bytes, group)?;
    }
    check_commands(sheet.commands.len())?;
    bytes.extend((sheet.commands.len() as u16).to_le_bytes());
    for command in &sheet.commands {
        write_command(&mut bytes, &sheet.groups, command)?;
    }
    write_new_zeros(&mut bytes, &sheet.groups);
    Ok(bytes)
}

/// "Each has n in one byte, then n levels of two bytes." "Size is judged at the n byte and a tie after the group's last level."
fn write_group(bytes: &mut Vec<u8>, group: &Group) -> Result<(), Reason> {
    check_size(group.n)?;
    names_by_level(group.charge())?;
    bytes.push(group.n as u8);
    bytes.extend(group.charge().iter().flat_map(|level| level.to_le_bytes()));
    Ok(())
}

/// "The kind byte comes first, then the group byte (0 to G - 1). Kind 1 is count up, with k in four bytes.
/// Kind 2 is rewrite, with n names. Kind 3 is store, with m and s in eight bytes each." "Writing takes kind 4 as well": "a group byte and nothing more".
fn write_command(bytes: &mut Vec<u8>, groups: &[Group], command: &Command) -> Result<(), Reason> {
    let group = group_of(groups, command.group)?;
    match command.job {
        Job::CountUp { k } => {
            bytes.extend([1, command.group]);
            bytes.extend(k.to_le_bytes());
        }
        Job::Rewrite { ref target } => {
            bytes.extend([2, command.group]);
            bytes.extend(names_for(group, target)?);
        }
        Job::Store { m, symbol } => {
            bytes.extend([3, command.group]);
            bytes.extend([m, symbol].into_iter().flat_map(u64::to_le_bytes));
        }
        Job::ChangeZero => bytes.extend([4, command.group]),
    }
    Ok(())
}

/// "A held rewrite whose n isn't its group's is fit, and one with a name past n other than 0 is muddle; this is judged where its names would be
/// written, fit first." The names themselves are not judged: a sheet holds any bytes there.
fn names_for<'a>(group: &Group, target: &'a Permutation) -> Result<&'a [u8], Reason> {
    refuse_if(target.n != group.n, Reason::Fit)?;
    let (names, past) = target.cells.split_at(target.n);
    refuse_if(past.iter().any(|&name| name != 0), Reason::Muddle)?;
    Ok(names)
}

/// "The writer writes the section when a group is on the new zero." Nothing is refused here: the groups are at most 64, and their numbers rise.
fn write_new_zeros(bytes: &mut Vec<u8>, groups: &[Group]) {
    let numbers: Vec<u8> = (0..).zip(groups).filter(|(_, group)| group.zero == Zero::New).map(|(number, _)| number).collect();
    if !numbers.is_empty() {
        bytes.push(numbers.len() as u8);
        bytes.extend(numbers);
    }
}
