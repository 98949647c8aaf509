//! Storing and reading a symbol by the prefix code.

use crate::levels::{check_ceiling, names_by_level, push_cells, Spent};
use crate::permutations::factorial;
use crate::reason::{refuse_if, Reason};

/// "m outside 1 to n!"
pub(crate) fn check_code(n: usize, m: u64) -> Result<(), Reason> {
    refuse_if(m < 1 || m > factorial(n), Reason::Value)
}

/// "The smallest p with n!/(n-p)! at least m", for m from 1 to n!
pub(crate) fn prefix_length(n: usize, m: u64) -> usize {
    let mut p = 0;
    let mut prefixes = 1;
    while prefixes < m {
        prefixes *= (n - p) as u64;
        p += 1;
    }
    p
}

/// "Symbol s, 0 to m - 1, is prefix number s of that length, counted from 0 in lexicographic sequence."
pub(crate) fn prefix_of_symbol(n: usize, p: usize, symbol: u64) -> Vec<u8> {
    let mut indices = Vec::with_capacity(p);
    let mut rest = symbol;
    for free in n - p + 1..=n {
        indices.push((rest % free as u64) as usize);
        rest /= free as u64;
    }
    let mut unused: Vec<u8> = (1..=n as u8).collect();
    indices.into_iter().rev().map(|index| unused.remove(index)).collect()
}

/// The number of a prefix "in lexicographic sequence": each cell counts the unused names below its own.
pub(crate) fn number_of_prefix(n: usize, prefix: &[u8]) -> u64 {
    let mut unused: Vec<u8> = (1..=n as u8).collect();
    let mut number = 0;
    for &cell in prefix {
        let index = unused.iter().take_while(|&&other| other < cell).count();
        number = number * unused.len() as u64 + index as u64;
        unused.remove(index);
    }
    number
}

/// Document 02, request 1: "Storing shall use the smallest r for which the order, with the prefix's first r cells taken out, begins with the rest of the
/// prefix; then cells r to 1 are pushed." "Ceiling is judged on the new number, and this replaces the storing rule of document 01." The names are those by level.
pub(crate) fn store_prefix(levels: &mut [u16], names: Vec<u8>, prefix: &[u8]) -> Result<Spent, Reason> {
    let mut left = names;
    let mut r = 0;
    while !left.starts_with(&prefix[r..]) {
        left.retain(|&cell| cell != prefix[r]);
        r += 1;
    }
    check_ceiling(levels, r as u32)?;
    let charge = push_cells(levels, prefix[..r].iter().rev().copied());
    Ok(Spent { pushes: r as u32, charge })
}

/// "Storing s"
pub fn store(levels: &mut [u16], m: u64, symbol: u64) -> Result<Spent, Reason> {
    let names = names_by_level(levels)?;
    let n = names.len();
    check_code(n, m)?;
    refuse_if(symbol >= m, Reason::Value)?;
    let prefix = prefix_of_symbol(n, prefix_length(n, m), symbol);
    store_prefix(levels, names, &prefix)
}

/// The symbol of the prefix that leads. Refused: "the order's prefix has number m or higher".
pub(crate) fn symbol_of_prefix(n: usize, m: u64, prefix: &[u8]) -> Result<u64, Reason> {
    let symbol = number_of_prefix(n, prefix);
    refuse_if(symbol >= m, Reason::Idle)?;
    Ok(symbol)
}

/// "Reading gives the symbol whose prefix leads the order."
pub fn read_symbol(levels: &[u16], m: u64) -> Result<u64, Reason> {
    let names = names_by_level(levels)?;
    let n = names.len();
    check_code(n, m)?;
    symbol_of_prefix(n, m, &names[..prefix_length(n, m)])
}
