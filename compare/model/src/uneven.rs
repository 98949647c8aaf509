//! Settings used unevenly: document 02, request 12, by the table of sub-problems of document 001, section V.

use crate::levels::{names_by_level, Spent};
use crate::permutations::factorial;
use crate::reason::{refuse_if, Reason};
use crate::symbols::store_prefix;
use std::cmp::Reverse;

/// Document 001's opt_i(x, m): the least sum of weight times length of the x lightest symbols, as leaves in the layers i to n - 1 of a tree that has at most m
/// vertices in layer i. None is ∞.
pub(crate) struct SubProblems {
    n: usize,
    /// How many symbols there are: document 001's ℓ, and document 02's m.
    symbols: usize,
    /// The sum of the x least weights, by x.
    sums: Vec<u64>,
    /// By i, x and m.
    opt: Vec<Vec<Vec<Option<u64>>>>,
}

impl SubProblems {
    /// "The algorithm first computes opt_{n-1}(x,m), then opt_{n-2}(x,m), and so on", for "x = 0, 1, ..., ℓ, and m = 0, 1, ..., min{ℓ, n!/(n-i)!}".
    pub(crate) fn solve(n: usize, weights: &[u16]) -> SubProblems {
        let mut rising = weights.to_vec();
        rising.sort_unstable();
        let symbols = weights.len();
        let sums = (0..=symbols).map(|x| rising[..x].iter().map(|&weight| u64::from(weight)).sum()).collect();
        let mut table = SubProblems { n, symbols, sums, opt: vec![vec![]; n] };
        for i in (1..n).rev() {
            let most = symbols.min((factorial(n) / factorial(n - i)) as usize);
            table.opt[i] = (0..=symbols).map(|x| (0..=most).map(|m| table.least(i, x, m)).collect()).collect();
        }
        table
    }

    pub(crate) fn opt(&self, i: usize, x: usize, m: usize) -> Option<u64> {
        self.opt[i][x][m]
    }

    /// The four recursions.
    fn least(&self, i: usize, x: usize, m: usize) -> Option<u64> {
        if x == 0 {
            Some(0)
        } else if x as u64 > m as u64 * factorial(self.n - i) {
            None
        } else if i == self.n - 1 {
            Some((self.n - 1) as u64 * self.sums[x])
        } else {
            (0..=x.min(m)).filter_map(|j| self.with_leaves(i, x, m, j)).min()
        }
    }

    /// With j leaves in layer i: "opt_{i+1}(x - j, min{ℓ, (m - j)·(n - i)})", and i times each of the j weights that are heaviest of x.
    fn with_leaves(&self, i: usize, x: usize, m: usize, j: usize) -> Option<u64> {
        let below = self.opt(i + 1, x - j, self.below(i, m - j))?;
        Some(below + i as u64 * (self.sums[x] - self.sums[x - j]))
    }

    /// The most vertices in the next layer, below so many of layer i; more than ℓ are never needed.
    fn below(&self, i: usize, vertices: usize) -> usize {
        self.symbols.min(vertices * (self.n - i))
    }

    /// "Among equals the lengths sorted from short to long come first lexicographically": the most leaves in layer i with which the minimum is met.
    fn leaves(&self, i: usize, x: usize, m: usize) -> usize {
        if i == self.n - 1 {
            return x;
        }
        (0..=x.min(m)).rev().find(|&j| self.with_leaves(i, x, m, j) == self.opt(i, x, m)).expect("a minimum is met")
    }

    /// "Given these values, it is straightforward to determine in the optimal code, how many prefix sequences are in each layer": their lengths from short to long.
    /// The whole code is opt_1(ℓ, n), or opt_1(ℓ, ℓ) where ℓ is below n: the table has no more vertices than ℓ.
    pub(crate) fn lengths(&self) -> Vec<usize> {
        let (mut x, mut m) = (self.symbols, self.below(0, 1));
        let mut lengths = vec![];
        for i in 1..self.n {
            let j = self.leaves(i, x, m);
            lengths.extend(vec![i; j]);
            (x, m) = (x - j, self.below(i, m - j));
        }
        lengths
    }
}

/// "The first prefix of its length, lexicographically, that no earlier one starts", of those that go on from this one.
fn first_free(n: usize, length: usize, from: &[u8], earlier: &[Vec<u8>]) -> Option<Vec<u8>> {
    if earlier.iter().any(|prefix| prefix == from) {
        return None;
    }
    if from.len() == length {
        return Some(from.to_vec());
    }
    let mut unused = (1..=n as u8).filter(|cell| !from.contains(cell));
    unused.find_map(|cell| first_free(n, length, &[from, &[cell]].concat(), earlier))
}

/// The prefixes, by symbol. "Heavier symbols get the shorter ones, the lower symbol first where weights tie. Taken in that sequence, each symbol gets the first
/// prefix of its length".
pub(crate) fn code(n: usize, weights: &[u16]) -> Vec<Vec<u8>> {
    let mut sequence: Vec<usize> = (0..weights.len()).collect();
    sequence.sort_by_key(|&symbol| (Reverse(weights[symbol]), symbol));
    let mut prefixes = vec![];
    for length in SubProblems::solve(n, weights).lengths() {
        let prefix = first_free(n, length, &[], &prefixes).expect("there is room for each");
        prefixes.push(prefix);
    }
    let mut by_symbol = vec![vec![]; weights.len()];
    for (symbol, prefix) in sequence.into_iter().zip(prefixes) {
        by_symbol[symbol] = prefix;
    }
    by_symbol
}

/// "An n outside 2 to 8 is size, then a weight list that hasn't m entries is fit".
fn check_lists(n: usize, weights: &[u16], m: u64) -> Result<(), Reason> {
    refuse_if(!(2..=8).contains(&n), Reason::Size)?;
    refuse_if(weights.len() as u64 != m, Reason::Fit)
}

/// "And an m outside 2 to 64 or above n! is value."
fn check_m(n: usize, m: u64) -> Result<(), Reason> {
    refuse_if(!(2..=64).contains(&m) || m > factorial(n), Reason::Value)
}

/// The prefix of a symbol. Refused: m as above, "symbol at or above m".
fn prefix_of(n: usize, weights: &[u16], m: u64, symbol: u64) -> Result<Vec<u8>, Reason> {
    check_m(n, m)?;
    refuse_if(symbol >= m, Reason::Value)?;
    Ok(code(n, weights).swap_remove(symbol as usize))
}

/// The names of a symbol's prefix.
pub fn prefix_uneven(n: usize, weights: &[u16], m: u64, symbol: u64) -> Result<Vec<u8>, Reason> {
    check_lists(n, weights, m)?;
    prefix_of(n, weights, m, symbol)
}

/// "Storing and reading work with these as with the even code, with the least pushes".
pub fn store_uneven(levels: &mut [u16], weights: &[u16], m: u64, symbol: u64) -> Result<Spent, Reason> {
    check_lists(levels.len(), weights, m)?;
    let names = names_by_level(levels)?;
    let prefix = prefix_of(levels.len(), weights, m, symbol)?;
    store_prefix(levels, names, &prefix)
}

/// "An order that starts with none of the prefixes is idle."
pub fn read_uneven(levels: &[u16], weights: &[u16], m: u64) -> Result<u64, Reason> {
    check_lists(levels.len(), weights, m)?;
    let names = names_by_level(levels)?;
    check_m(levels.len(), m)?;
    let symbol = code(levels.len(), weights).iter().position(|prefix| names.starts_with(prefix));
    symbol.map(|symbol| symbol as u64).ok_or(Reason::Idle)
}
