//! Uneven codes by the table of sub-problems: what document 02's request 12 asks for, on the numbers of prefixes of each length that the table gives. A refused job gives
//! None.
use crate::sub_problems::{factorial, Counts, Fill};
use model::Spent;

/// A code on n cells: its symbols with the lengths of their prefixes, the heaviest first.
struct Code {
    n: usize,
    symbols: [u8; 64],
    lengths: [u8; 64],
    count: usize,
}

impl Code {
    fn new(fill: Fill, n: usize, weights: &[u16], m: u64) -> Option<Code> {
        let count = weights.len();
        let taken = (2..=8).contains(&n) && count as u64 == m && (2..=64).contains(&count) && count <= factorial(n);
        taken.then(|| Code::of(fill, n, weights))
    }

    fn of(fill: Fill, n: usize, weights: &[u16]) -> Code {
        let count = weights.len();
        let mut symbols = [0; 64];
        (0..).zip(&mut symbols).for_each(|(number, symbol)| *symbol = number);
        symbols[..count].sort_unstable_by_key(|&symbol| (u16::MAX - weights[usize::from(symbol)], symbol));
        let mut sums = [0; 65];
        for x in 0..count {
            sums[x + 1] = sums[x] + u32::from(weights[usize::from(symbols[count - 1 - x])]);
        }
        Code { n, symbols, lengths: spread(&fill(n, &sums[..=count])), count }
    }

    /// Of each symbol, heaviest first, the length of its prefix and the first of the permutations that this leads, by their numbers in lexicographic sequence. It leads
    /// (n - length)!, and the first prefix that no earlier one starts leads the next ones.
    fn led(&self) -> impl Iterator<Item = (u64, usize, usize)> + '_ {
        let symbols = self.symbols[..self.count].iter().zip(&self.lengths);
        symbols.scan(0, |next, (&symbol, &length)| {
            let first = *next;
            *next += factorial(self.n - usize::from(length));
            Some((symbol.into(), length.into(), first))
        })
    }

    /// The prefix in a row, and its length.
    fn prefix(&self, symbol: u64) -> Option<([u8; 20], usize)> {
        let (_, length, first) = self.led().find(|&(other, ..)| other == symbol)?;
        let mut unused = [1, 2, 3, 4, 5, 6, 7, 8];
        let (mut cells, mut rest) = ([0; 20], first);
        for (place, cell) in cells.iter_mut().enumerate().take(length) {
            let index = rest / factorial(self.n - 1 - place);
            rest %= factorial(self.n - 1 - place);
            *cell = unused[index];
            unused.copy_within(index + 1.., index);
        }
        Some((cells, length))
    }
}

fn spread(counts: &Counts) -> [u8; 64] {
    let mut lengths = [0; 64];
    let mut from = 0;
    for (length, &count) in (1..).zip(counts) {
        lengths[from..from + count].fill(length);
        from += count;
    }
    lengths
}

/// The names from the highest level to the lowest, in a row.
fn names(levels: &[u16]) -> Option<[u8; 8]> {
    let mut names = [1, 2, 3, 4, 5, 6, 7, 8];
    let level = |name: u8| levels[usize::from(name) - 1];
    let row = names.get_mut(..levels.len())?;
    row.sort_unstable_by_key(|&name| u16::MAX - level(name));
    let tie = row.windows(2).any(|pair| level(pair[0]) == level(pair[1]));
    (!tie).then_some(names)
}

pub fn prefix(fill: Fill, n: usize, weights: &[u16], m: u64, symbol: u64) -> Option<([u8; 20], usize)> {
    Code::new(fill, n, weights, m)?.prefix(symbol)
}

/// r is the smallest number for which the rest of the prefix leads the names that are not among its first r.
pub fn store(fill: Fill, levels: &mut [u16], weights: &[u16], m: u64, symbol: u64) -> Option<Spent> {
    let names = names(levels)?;
    let (cells, length) = Code::new(fill, levels.len(), weights, m)?.prefix(symbol)?;
    let prefix = &cells[..length];
    let leads = |r: usize| {
        let mut left = names[..levels.len()].iter().filter(|name| !prefix[..r].contains(name));
        prefix[r..].iter().all(|cell| left.next() == Some(cell))
    };
    let r = (0..length).find(|&r| leads(r)).unwrap_or(length);
    let mut top = levels[usize::from(names[0]) - 1];
    top.checked_add(r as u16)?;
    let mut charge = 0;
    for &cell in prefix[..r].iter().rev() {
        let level = &mut levels[usize::from(cell) - 1];
        top += 1;
        charge += u32::from(top - *level);
        *level = top;
    }
    Some(Spent { pushes: r as u32, charge })
}

pub fn read(fill: Fill, levels: &[u16], weights: &[u16], m: u64) -> Option<u64> {
    let names = names(levels)?;
    let n = levels.len();
    let code = Code::new(fill, n, weights, m)?;
    let lower = |place: usize| names[place + 1..n].iter().filter(|&&name| name < names[place]).count();
    let number: usize = (0..n).map(|place| lower(place) * factorial(n - 1 - place)).sum();
    let mut led = code.led();
    led.find(|&(_, length, first)| (first..first + factorial(n - length)).contains(&number)).map(|(symbol, ..)| symbol)
}
