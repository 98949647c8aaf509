//! Reading from bands, a lowest and a highest level for each cell: document 02, request 4.

use crate::levels::{level, sorted_names};
use crate::permutations::Permutation;
use crate::reason::{check_size, refuse_if, Reason};
use crate::symbols::{check_code, prefix_length, symbol_of_prefix};

/// "With n the length of the list of lowest levels, lists of different length are fit, a lowest above its highest is value, and tie doesn't arise here."
fn check_bands(lowest: &[u16], highest: &[u16]) -> Result<(), Reason> {
    check_size(lowest.len())?;
    refuse_if(highest.len() != lowest.len(), Reason::Fit)?;
    refuse_if(lowest.iter().zip(highest).any(|(lowest, highest)| lowest > highest), Reason::Value)
}

/// All names, the first p of which "lead in the same sequence, each strictly above all cells below it", "in every choice". The lowest levels are a choice, so no
/// others can be the first; and a cell is above another in every choice exactly when its lowest level is above the other's highest.
fn names_led(lowest: &[u16], highest: &[u16], p: usize) -> Result<Vec<u8>, Reason> {
    let names = sorted_names(lowest);
    let (leading, others) = names.split_at(p);
    // The highest level of all cells below: once a cell is surely above it, that cell's own.
    let mut below = others.iter().map(|&cell| level(highest, cell)).max();
    for &cell in leading.iter().rev() {
        refuse_if(Some(level(lowest, cell)) <= below, Reason::Unsure)?;
        below = Some(level(highest, cell));
    }
    Ok(names)
}

/// "The order is given exactly when every choice of one level from each band has no tie and yields that same order": all its cells lead.
pub fn read_bands(lowest: &[u16], highest: &[u16]) -> Result<Permutation, Reason> {
    check_bands(lowest, highest)?;
    names_led(lowest, highest, lowest.len()).map(|names| Permutation::from_names(&names))
}

/// "Where it isn't idle, it is given exactly when, in every choice, the same p cells lead [..]; ties further down don't matter." Unsure "comes before idle".
pub fn read_symbol_bands(lowest: &[u16], highest: &[u16], m: u64) -> Result<u64, Reason> {
    check_bands(lowest, highest)?;
    let n = lowest.len();
    check_code(n, m)?;
    let p = prefix_length(n, m);
    let names = names_led(lowest, highest, p)?;
    symbol_of_prefix(n, m, &names[..p])
}
