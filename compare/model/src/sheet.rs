//! A bench sheet, held in memory.

use crate::permutations::{padded, Permutation};
use crate::reason::{refuse_if, Reason};
use crate::zero::Zero;

/// "One of three kinds"; document 02, request 8, has a fourth, to "move to the new zero".
#[derive(Clone, Copy, Debug, PartialEq, Eq)]
pub enum Job {
    CountUp { k: u32 },
    Rewrite { target: Permutation },
    Store { m: u64, symbol: u64 },
    ChangeZero,
}

/// "Each command carries its group number" and its kind.
#[derive(Clone, Copy, Debug, PartialEq, Eq)]
pub struct Command {
    pub group: u8,
    pub job: Job,
}

/// n and a row of twenty levels, "entry by cell name", as handed in; it may be wrong. The places past n are on no sheet. Document 02, request 7: "A group now carries
/// its zero."
#[derive(Clone, Copy, Debug, PartialEq, Eq)]
pub struct Group {
    pub n: usize,
    pub levels: [u16; 20],
    pub zero: Zero,
}

impl Group {
    /// At most 20 levels, on the old zero.
    pub fn from_levels(levels: &[u16]) -> Group {
        Group { n: levels.len(), levels: padded(levels), zero: Zero::Old }
    }

    /// "Its charge is a lent list of 16-bit charge levels"; n is checked already.
    pub(crate) fn charge(&self) -> &[u16] {
        &self.levels[..self.n]
    }

    pub(crate) fn charge_mut(&mut self) -> &mut [u16] {
        &mut self.levels[..self.n]
    }
}

/// "Groups and commands held in memory", as handed in or without fault. The counts are the lists' lengths.
#[derive(Clone, Debug, PartialEq, Eq)]
pub struct Sheet {
    pub groups: Vec<Group>,
    pub commands: Vec<Command>,
}

/// "Count G in one byte, 1 to 64"
pub(crate) fn check_groups(count: usize) -> Result<(), Reason> {
    refuse_if(!(1..=64).contains(&count), Reason::Sheet)
}

/// "Count in two bytes, 0 to 1,000"
pub(crate) fn check_commands(count: usize) -> Result<(), Reason> {
    refuse_if(count > 1000, Reason::Sheet)
}

/// "A count in one byte, 1 to G", of the groups on the new zero
pub(crate) fn check_new_zeros(count: usize, groups: &[Group]) -> Result<(), Reason> {
    refuse_if(!(1..=groups.len()).contains(&count), Reason::Sheet)
}

/// "The group byte (0 to G - 1)"
pub(crate) fn group_of(groups: &[Group], number: u8) -> Result<&Group, Reason> {
    groups.get(usize::from(number)).ok_or(Reason::Sheet)
}
