//! Groups and commands held in memory, and the lists in which they cross.
use crate::raw::{self, Permutation, Written};
use crate::{Reason, Zero};

/// A group of a sheet: the first n levels, entry by cell name, and the zero on which it starts. What stands past the n levels is not looked at.
#[derive(Clone, Copy, Debug, PartialEq, Eq)]
pub struct Group {
    pub n: usize,
    pub levels: [u16; 20],
    pub zero: Zero,
}

impl Group {
    /// The group of these levels, on the old zero. More than 20 have none; all else is for the writing to judge.
    pub fn new(levels: &[u16]) -> Result<Group, Reason> {
        let mut row = [0; 20];
        row.get_mut(..levels.len()).ok_or(Reason::Size)?.copy_from_slice(levels);
        Ok(Group { n: levels.len(), levels: row, zero: Zero::Old })
    }

    /// The same levels on this zero.
    pub fn on(self, zero: Zero) -> Group {
        Group { zero, ..self }
    }
}

/// What a command does on its group.
#[derive(Clone, Copy, Debug, PartialEq, Eq)]
pub enum Action {
    /// Counts up by k.
    Count(u32),
    /// Rewrites to a target.
    Rewrite(Permutation),
    /// Stores a symbol of a code of m.
    Store { m: u64, symbol: u64 },
    /// Changes to the new zero, without a push. A group already there stays as it is.
    ChangeZero,
}

/// A command of a sheet, with the number of its group: the first has 0.
#[derive(Clone, Copy, Debug, PartialEq, Eq)]
pub struct Command {
    pub group: u8,
    pub action: Action,
}

impl Command {
    pub fn count(group: u8, k: u32) -> Command {
        Command { group, action: Action::Count(k) }
    }

    pub fn rewrite(group: u8, target: Permutation) -> Command {
        Command { group, action: Action::Rewrite(target) }
    }

    pub fn store(group: u8, m: u64, symbol: u64) -> Command {
        Command { group, action: Action::Store { m, symbol } }
    }

    pub fn change_zero(group: u8) -> Command {
        Command { group, action: Action::ChangeZero }
    }
}

// One more than a sheet has, since that is refused as any longer list is, at the same place.
const GROUPS: usize = 64 + 1;
const COMMANDS: usize = 1000 + 1;

/// The lists of [`raw::write_sheet`], a row for each group or command.
struct Rows {
    sizes: [usize; GROUPS],
    levels: [[u16; 20]; GROUPS],
    zeros: [u8; GROUPS],
    kinds: [u8; COMMANDS],
    groups: [u8; COMMANDS],
    numbers: [[u64; 2]; COMMANDS],
    names: [[u8; 20]; COMMANDS],
}

impl Rows {
    fn put_group(&mut self, row: usize, group: &Group) {
        self.sizes[row] = group.n;
        self.levels[row] = group.levels;
        self.zeros[row] = group.zero as u8;
    }

    fn put_command(&mut self, row: usize, command: &Command) {
        self.groups[row] = command.group;
        match command.action {
            Action::Count(k) => {
                self.kinds[row] = 1;
                self.numbers[row] = [k.into(), 0];
            }
            Action::Rewrite(target) => {
                self.kinds[row] = 2;
                self.numbers[row] = [target.n as u64, 0];
                self.names[row] = target.cells;
            }
            Action::Store { m, symbol } => {
                self.kinds[row] = 3;
                self.numbers[row] = [m, symbol];
            }
            Action::ChangeZero => self.kinds[row] = 4,
        }
    }
}

pub(crate) fn write(groups: &[Group], commands: &[Command], out: &mut [u8]) -> Written {
    let mut rows = Rows {
        sizes: [0; GROUPS],
        levels: [[0; 20]; GROUPS],
        zeros: [0; GROUPS],
        kinds: [0; COMMANDS],
        groups: [0; COMMANDS],
        numbers: [[0; 2]; COMMANDS],
        names: [[0; 20]; COMMANDS],
    };
    let (g, c) = (groups.len().min(GROUPS), commands.len().min(COMMANDS));
    groups[..g].iter().enumerate().for_each(|(row, group)| rows.put_group(row, group));
    commands[..c].iter().enumerate().for_each(|(row, command)| rows.put_command(row, command));
    let (levels, numbers, names) = (rows.levels.as_flattened(), rows.numbers.as_flattened(), rows.names.as_flattened());
    raw::write_sheet(&rows.sizes[..g], levels, &rows.zeros, &rows.kinds[..c], &rows.groups[..c], numbers, names, out)
}
