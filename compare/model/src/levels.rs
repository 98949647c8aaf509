//! Jobs on charge levels: read, push, count up and rewrite.

use crate::permutations::{check_place, push_names, successor_of_names, Permutation};
use crate::reason::{check_size, refuse_if, Reason};
use std::cmp::Reverse;

/// What a job that is done gives: "their number of pushes", and by document 02, request 3, "the total of their jumps in 32 bits". It fits: at most 20 levels rise,
/// each to 65,535 at most.
#[derive(Clone, Copy, Debug, Default, PartialEq, Eq)]
pub struct Spent {
    pub pushes: u32,
    pub charge: u32,
}

/// "Entry by cell name"
pub(crate) fn level(levels: &[u16], cell: u8) -> u16 {
    levels[usize::from(cell) - 1]
}

/// "Top and bottom are the highest and lowest level."
fn top(levels: &[u16]) -> u16 {
    levels.iter().copied().max().unwrap_or(0)
}

/// "The order lists the names from highest level to lowest."
pub(crate) fn sorted_names(levels: &[u16]) -> Vec<u8> {
    let mut names: Vec<u8> = (1..=levels.len() as u8).collect();
    names.sort_unstable_by_key(|&cell| Reverse(level(levels, cell)));
    names
}

/// Refused: "n is below 2 or above 20", "two levels are equal". Equal levels stand side by side once sorted.
pub(crate) fn names_by_level(levels: &[u16]) -> Result<Vec<u8>, Reason> {
    check_size(levels.len())?;
    let names = sorted_names(levels);
    let tie = names.windows(2).any(|pair| level(levels, pair[0]) == level(levels, pair[1]));
    refuse_if(tie, Reason::Tie)?;
    Ok(names)
}

/// "Top level plus the job's pushes exceeds 65,535", "judged on the whole job, before its first push"
pub(crate) fn check_ceiling(levels: &[u16], pushes: u32) -> Result<(), Reason> {
    refuse_if(u64::from(top(levels)) + u64::from(pushes) > 65_535, Reason::Ceiling)
}

/// "That cell's level becomes the old top level plus 1 and no other changes." The ceiling is already checked. Gives the total of the jumps, each "the new level less
/// the old".
pub(crate) fn push_cells(levels: &mut [u16], cells: impl IntoIterator<Item = u8>) -> u32 {
    let mut top = top(levels);
    let mut charge = 0;
    for cell in cells {
        let old = level(levels, cell);
        top += 1;
        levels[usize::from(cell) - 1] = top;
        charge += u32::from(top - old);
    }
    charge
}

/// "Reading an order from levels"
pub fn read(levels: &[u16]) -> Result<Permutation, Reason> {
    names_by_level(levels).map(|names| Permutation::from_names(&names))
}

/// "Push at place i, 2 to n", "on levels". "Each push on levels shall also give its jump."
pub fn push_level(levels: &mut [u16], place: usize) -> Result<Spent, Reason> {
    let names = names_by_level(levels)?;
    check_place(names.len(), place)?;
    check_ceiling(levels, 1)?;
    let charge = push_cells(levels, [names[place - 1]]);
    Ok(Spent { pushes: 1, charge })
}

/// "k next steps, each a push on the levels. k = 0 is allowed and does no push."
pub fn count_up(levels: &mut [u16], k: u32) -> Result<Spent, Reason> {
    let mut names = names_by_level(levels)?;
    check_ceiling(levels, k)?;
    let pushed = (0..k).map(|_| {
        let place = successor_of_names(&names);
        push_names(&mut names, place);
        names[0]
    });
    let charge = push_cells(levels, pushed);
    Ok(Spent { pushes: k, charge })
}

/// "r is the smallest number for which the last n - r cells of the target stand in that same relative sequence now.
/// The target's cells r, r-1, ..., 1 are pushed. The push list gets those r names in that sequence from its start;
/// its later bytes keep their values."
pub fn rewrite(levels: &mut [u16], target: &Permutation, list: &mut [u8]) -> Result<Spent, Reason> {
    let n = levels.len();
    check_size(n)?;
    check_size(target.n)?;
    refuse_if(target.n != n || list.len() < n - 1, Reason::Fit)?;
    let names = target.names()?;
    names_by_level(levels)?;
    let out_of_sequence = |pair: &[u8]| level(levels, pair[0]) < level(levels, pair[1]);
    let r = names.windows(2).rposition(out_of_sequence).map_or(0, |last| last + 1);
    check_ceiling(levels, r as u32)?;
    let pushed: Vec<u8> = names[..r].iter().rev().copied().collect();
    list[..r].copy_from_slice(&pushed);
    let charge = push_cells(levels, pushed);
    Ok(Spent { pushes: r as u32, charge })
}
