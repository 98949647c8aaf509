//! Several cells to a place: document 02, request 11.

use crate::reason::{refuse_if, Reason};

/// "q is 2 to 16, z 1 to 16, and q × z at most 64." Gives q × z, which is worked out where both are in their ranges: of others it need not fit 64 bits.
fn number_of_cells(q: usize, z: usize) -> Result<usize, Reason> {
    refuse_if(!(2..=16).contains(&q) || !(1..=16).contains(&z), Reason::Size)?;
    refuse_if(q * z > 64, Reason::Size)?;
    Ok(q * z)
}

/// "An arrangement gives each of the q × z cells a level from 1 to q, each level used z times."
fn check_arrangement(q: usize, z: usize, levels: &[u8]) -> Result<(), Reason> {
    let outside = levels.iter().any(|&level| !(1..=q).contains(&level.into()));
    let used = |level: usize| levels.iter().filter(|&&other| usize::from(other) == level).count();
    refuse_if(outside || (1..=q).any(|level| used(level) != z), Reason::Muddle)
}

/// "The largest of old level less new level over all cells. Those differences can be negative; their largest can't."
fn least_cost(old: &[u8], new: &[u8]) -> u8 {
    let differences = old.iter().zip(new).map(|(&old, &new)| i16::from(old) - i16::from(new));
    let largest = differences.max().expect("an arrangement has cells");
    u8::try_from(largest).expect("the largest difference is not negative")
}

/// "Give the cost and the raised levels, each cell's new level plus the cost, into a lent list." "Sizes outside the ranges are size, then lists without q × z
/// entries are fit, then a wrong arrangement is muddle."
pub fn rearrange(q: usize, z: usize, old: &[u8], new: &[u8], list: &mut [u8]) -> Result<u8, Reason> {
    let cells = number_of_cells(q, z)?;
    refuse_if([old.len(), new.len(), list.len()].into_iter().any(|entries| entries != cells), Reason::Fit)?;
    check_arrangement(q, z, old)?;
    check_arrangement(q, z, new)?;
    let cost = least_cost(old, new);
    for (raised, level) in list.iter_mut().zip(new) {
        *raised = level + cost;
    }
    Ok(cost)
}
