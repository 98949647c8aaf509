//! Writes a bench sheet to standard output: document 01's, from a group and three commands, and beside it the same group on the new zero.
use std::error::Error;
use std::io::{stdout, Write};
use turretmedlar::{write_sheet, Command, Group, Permutation, Zero, SHEET_BYTES};

fn main() -> Result<(), Box<dyn Error>> {
    let group = Group::new(&[3, 1, 2])?;
    let groups = [group, group.on(Zero::New)];
    let target = Permutation::new(&[3, 1, 2])?;
    let commands = [Command::count(0, 4), Command::rewrite(0, target), Command::store(0, 3, 3)];

    let mut sheet = [0; SHEET_BYTES];
    let length = write_sheet(&groups, &commands, &mut sheet)?;
    stdout().write_all(&sheet[..length])?;
    Ok(())
}
