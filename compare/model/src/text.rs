//! The bench program: the work of a sheet and its printed text.

use crate::levels::{count_up, rewrite, sorted_names, Spent};
use crate::reader::read_sheet;
use crate::reason::Reason;
use crate::sheet::{Group, Job, Sheet};
use crate::symbols::store;
use crate::zero::{value_from, Zero};

/// The whole printed text of a bench sheet. "A faulty sheet gives one line: s, number." "Only a sheet without fault starts work."
pub fn bench(sheet: &[u8]) -> Vec<u8> {
    let mut text = Vec::new();
    match read_sheet(sheet) {
        Ok(sheet) => work(&mut text, sheet),
        Err(reason) => line(&mut text, b's', [reason as u64]),
    }
    text
}

/// "In decimal, fields parted by one space, a newline after every line"
fn line(text: &mut Vec<u8>, mark: u8, numbers: impl IntoIterator<Item = u64>) {
    text.push(mark);
    for number in numbers {
        text.push(b' ');
        text.extend(number.to_string().bytes());
    }
    text.push(b'\n');
}

/// "Each command has: c, its place from 1, number, pushes done. Then each group has: g, group number, rank, levels by name."
/// Document 02, request 3: "The printed lines keep their fields", so the charge is in none. Request 7: "The g line prints the value", where the rank was,
/// on the zero on which the commands leave the group.
fn work(text: &mut Vec<u8>, sheet: Sheet) {
    let Sheet { mut groups, commands } = sheet;
    for (place, command) in (1..).zip(&commands) {
        let (number, pushes) = match perform(&mut groups[usize::from(command.group)], &command.job) {
            Ok(spent) => (0, spent.pushes),
            Err(reason) => (reason as u64, 0),
        };
        line(text, b'c', [place, number, u64::from(pushes)]);
    }
    for (number, group) in (0..).zip(&groups) {
        let value = value_from(&group.zero.names(group.n), &sorted_names(group.charge()));
        let levels = group.charge().iter().map(|&level| u64::from(level));
        line(text, b'g', [number, value].into_iter().chain(levels));
    }
}

/// "Each command is done or sent back by itself."
pub(crate) fn perform(group: &mut Group, job: &Job) -> Result<Spent, Reason> {
    match *job {
        Job::CountUp { k } => count_up(group.charge_mut(), k),
        Job::Rewrite { ref target } => rewrite(group.charge_mut(), target, &mut [0; 20]),
        Job::Store { m, symbol } => store(group.charge_mut(), m, symbol),
        Job::ChangeZero => Ok(change_zero(group)),
    }
}

/// Document 02, request 8: "A running module must move to the new zero between two commands, without a push." "Its line shows 0 pushes. On a group already there it
/// is done and alters nothing."
fn change_zero(group: &mut Group) -> Spent {
    group.zero = Zero::New;
    Spent { pushes: 0, charge: 0 }
}
