//! Held sheets for the library: by its types, and by its lists.
use crate::lent::Lent;
use model::{Job, Reason, Sheet};
use std::fmt::Debug;
use turretmedlar::{raw, Command, Group, Permutation, Zero};

/// The library's zero for the model's.
pub fn zero(zero: model::Zero) -> Zero {
    match zero {
        model::Zero::Old => Zero::Old,
        model::Zero::New => Zero::New,
    }
}

/// The library's groups and commands for the model's.
pub fn held(sheet: &Sheet) -> (Vec<Group>, Vec<Command>) {
    let command = |command: &model::Command| match command.job {
        Job::CountUp { k } => Command::count(command.group, k),
        Job::Rewrite { target } => Command::rewrite(command.group, Permutation { n: target.n, cells: target.cells }),
        Job::Store { m, symbol } => Command::store(command.group, m, symbol),
        Job::ChangeZero => Command::change_zero(command.group),
    };
    let groups = sheet.groups.iter().map(|group| Group { n: group.n, levels: group.levels, zero: zero(group.zero) });
    (groups.collect(), sheet.commands.iter().map(command).collect())
}

/// The lists that `raw::write_sheet` reads, right or wrong.
#[derive(Clone, Debug, PartialEq)]
pub struct Rows {
    pub sizes: Vec<usize>,
    pub levels: Vec<u16>,
    pub zeros: Vec<u8>,
    pub kinds: Vec<u8>,
    pub groups: Vec<u8>,
    pub numbers: Vec<u64>,
    pub names: Vec<u8>,
}

impl Rows {
    /// Of a held sheet. What its commands leave open is not looked at, and is as high as can be.
    pub fn of(sheet: &Sheet) -> Rows {
        let command = |command: &model::Command| match command.job {
            Job::CountUp { k } => (1, [k.into(), u64::MAX], [255; 20]),
            Job::Rewrite { target } => (2, [target.n as u64, u64::MAX], target.cells),
            Job::Store { m, symbol } => (3, [m, symbol], [255; 20]),
            Job::ChangeZero => (4, [u64::MAX; 2], [255; 20]),
        };
        let rows: Vec<(u8, [u64; 2], [u8; 20])> = sheet.commands.iter().map(command).collect();
        Rows {
            sizes: sheet.groups.iter().map(|group| group.n).collect(),
            levels: sheet.groups.iter().flat_map(|group| group.levels).collect(),
            zeros: sheet.groups.iter().map(|group| u8::from(group.zero == model::Zero::New)).collect(),
            kinds: rows.iter().map(|row| row.0).collect(),
            groups: sheet.commands.iter().map(|command| command.group).collect(),
            numbers: rows.iter().flat_map(|row| row.1).collect(),
            names: rows.iter().flat_map(|row| row.2).collect(),
        }
    }

    /// The held sheet that they say, as the header tells it. A list too short for its rows is fit, and then a zero that is neither is value.
    pub fn sheet(&self) -> Result<Sheet, Reason> {
        let (groups, commands) = (self.sizes.len(), self.kinds.len());
        let of_groups = self.levels.len() < 20 * groups || self.zeros.len() < groups;
        if of_groups || self.groups.len() < commands || self.numbers.len() < 2 * commands || self.names.len() < 20 * commands {
            return Err(Reason::Fit);
        }
        let groups = (0..groups).map(|row| self.group(row)).collect::<Result<_, _>>()?;
        Ok(Sheet { groups, commands: (0..commands).map(|row| self.command(row)).collect() })
    }

    fn group(&self, row: usize) -> Result<model::Group, Reason> {
        let levels = self.levels[20 * row..][..20].try_into().expect("a row");
        Ok(model::Group { n: self.sizes[row], levels, zero: model::Zero::from_number(self.zeros[row])? })
    }

    /// A kind or a k that no held command has is sheet at its place, and so is the group number 255.
    fn command(&self, row: usize) -> model::Command {
        let numbers = &self.numbers[2 * row..][..2];
        let cells = self.names[20 * row..][..20].try_into().expect("a row");
        let job = match self.kinds[row] {
            1 => u32::try_from(numbers[0]).ok().map(|k| Job::CountUp { k }),
            2 => Some(Job::Rewrite { target: model::Permutation { n: numbers[0] as usize, cells } }),
            3 => Some(Job::Store { m: numbers[0], symbol: numbers[1] }),
            4 => Some(Job::ChangeZero),
            _ => None,
        };
        let none = model::Command { group: 255, job: Job::CountUp { k: 0 } };
        job.map_or(none, |job| model::Command { group: self.groups[row], job })
    }

    /// Lends the lists, which must then be as they were.
    pub(crate) fn write(&self, guarded: bool, out: &mut [u8], case: &dyn Debug) -> (u8, usize) {
        let (mut sizes, mut levels, mut zeros) = (Lent::of(&self.sizes, guarded), Lent::of(&self.levels, guarded), Lent::of(&self.zeros, guarded));
        let (mut kinds, mut groups) = (Lent::of(&self.kinds, guarded), Lent::of(&self.groups, guarded));
        let (mut numbers, mut names) = (Lent::of(&self.numbers, guarded), Lent::of(&self.names, guarded));
        let answer = raw::write_sheet(sizes.list(), levels.list(), zeros.list(), kinds.list(), groups.list(), numbers.list(), names.list(), out);
        sizes.check(&self.sizes, case);
        levels.check(&self.levels, case);
        zeros.check(&self.zeros, case);
        kinds.check(&self.kinds, case);
        groups.check(&self.groups, case);
        numbers.check(&self.numbers, case);
        names.check(&self.names, case);
        (answer.number, answer.length)
    }
}
