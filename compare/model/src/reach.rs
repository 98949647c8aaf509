//! The permutations within reach: document 02, request 6.

use crate::levels::names_by_level;
use crate::permutations::{factorial, padded, push_names};
use crate::reason::{refuse_if, Reason};
use std::collections::HashSet;

/// Names from place 1 down, with 0 past n.
type Row = [u8; 20];

/// "How many there are, n!/(n-r)!". Refused: "a value of r above n - 1, or a list that would exceed 65,536 bytes", "n names apiece". Its bytes are not worked out:
/// 20 times 20! does not fit 64 bits.
fn count_within(n: usize, r: usize) -> Result<usize, Reason> {
    refuse_if(r > n - 1, Reason::Value)?;
    let count = factorial(n) / factorial(n - r);
    refuse_if(count > 65_536 / n as u64, Reason::Value)?;
    Ok(count as usize)
}

/// "Every order whose least number of pushes from the present one [..] is at most r, each exactly once": breadth first, by a push at each place. "Fewest pushes
/// come first, then lexicographic sequence."
fn rows_within(names: &[u8], r: usize, count: usize) -> Vec<Row> {
    let present = padded(names);
    let mut seen = HashSet::with_capacity(count);
    seen.insert(present);
    let mut found = vec![vec![present]];
    for pushes in 1..=r {
        let mut next = Vec::new();
        for row in &found[pushes - 1] {
            for place in 2..=names.len() {
                let mut pushed = *row;
                push_names(&mut pushed, place);
                if seen.insert(pushed) {
                    next.push(pushed);
                }
            }
        }
        next.sort_unstable();
        found.push(next);
    }
    found.concat()
}

/// "List into lent bytes every order [..], n names apiece." "The job gives how many there are [..]; it does no push and judges no ceiling." "A lent list shorter
/// than the listing is fit, judged here after value. Bytes past the last order keep their values."
pub fn within_reach(levels: &[u16], r: usize, list: &mut [u8]) -> Result<usize, Reason> {
    let names = names_by_level(levels)?;
    let n = names.len();
    let count = count_within(n, r)?;
    let listing = list.get_mut(..n * count).ok_or(Reason::Fit)?;
    let rows = rows_within(&names, r, count);
    for (entry, row) in listing.chunks_exact_mut(n).zip(&rows) {
        entry.copy_from_slice(&row[..n]);
    }
    Ok(rows.len())
}
