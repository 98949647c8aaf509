//! Permutations (document 01: orders): push, successor, digits, rank and unrank.

use crate::reason::{check_size, refuse_if, Reason};

/// Document 01: an order, as handed in; it may be wrong.
#[derive(Clone, Copy, Debug, PartialEq, Eq)]
pub struct Permutation {
    pub n: usize,
    pub cells: [u8; 20],
}

impl Permutation {
    /// "All places past n hold 0." At most 20 names.
    pub(crate) fn from_names(names: &[u8]) -> Permutation {
        Permutation { n: names.len(), cells: padded(names) }
    }

    /// "The first n places hold each of 1 to n once; all places past n hold 0." Gives the first n places.
    pub(crate) fn names(&self) -> Result<&[u8], Reason> {
        check_size(self.n)?;
        let mut sorted = self.cells;
        sorted[..self.n].sort_unstable();
        let expected = (1..=20).map(|place| if place <= self.n { place as u8 } else { 0 });
        refuse_if(!sorted.into_iter().eq(expected), Reason::Muddle)?;
        Ok(&self.cells[..self.n])
    }
}

/// What the next step gives: "the place to push", and by document 02, request 9, the tests and the size of the shrunken group.
#[derive(Clone, Copy, Debug, Default, PartialEq, Eq)]
pub struct NextStep {
    pub place: usize,
    pub tests: usize,
    pub size: usize,
}

/// "A row of twenty with 0 past n"
pub(crate) fn padded<T: Copy + Default>(values: &[T]) -> [T; 20] {
    let mut row = [T::default(); 20];
    row[..values.len()].copy_from_slice(values);
    row
}

/// "The cell there moves to place 1, and those above it move down one."
pub(crate) fn push_names(names: &mut [u8], place: usize) {
    names[..place].rotate_right(1);
}

/// "Push place outside 2 to n"
pub(crate) fn check_place(n: usize, place: usize) -> Result<(), Reason> {
    refuse_if(!(2..=n).contains(&place), Reason::Value)
}

/// "Push at place i, 2 to n"
pub fn push(permutation: &Permutation, place: usize) -> Result<Permutation, Reason> {
    permutation.names()?;
    check_place(permutation.n, place)?;
    let mut next = *permutation;
    push_names(&mut next.cells, place);
    Ok(next)
}

/// "2 if n = 2. Otherwise n if cell n is not on top. Otherwise n + 1 less the successor of the smaller order,
/// which is places n, n-1, ..., 2 in that sequence."
pub(crate) fn successor_of_names(names: &[u8]) -> usize {
    let n = names.len();
    if n == 2 {
        2
    } else if usize::from(names[0]) != n {
        n
    } else {
        let smaller: Vec<u8> = names[1..].iter().rev().copied().collect();
        n + 1 - successor_of_names(&smaller)
    }
}

/// Document 02, request 9: "how many times "is the largest cell on top" was tested, and the size of the shrunken group at which the answer fell: the first
/// whose largest cell is not on top, or 2." "The tests equal those of document 001's function", so that a group of two is not tested. Apart from the place, since
/// counting up asks for that alone.
fn tests_and_size_of_names(names: &[u8]) -> (usize, usize) {
    let mut group = names.to_vec();
    let mut tests = 0;
    while group.len() > 2 {
        tests += 1;
        if usize::from(group[0]) != group.len() {
            break;
        }
        group.remove(0);
        group.reverse();
    }
    (tests, group.len())
}

/// "Next step of an order, as the place to push", with "the reason beside it"
pub fn successor(permutation: &Permutation) -> Result<NextStep, Reason> {
    let names = permutation.names()?;
    let (tests, size) = tests_and_size_of_names(names);
    Ok(NextStep { place: successor_of_names(names), tests, size })
}

/// "Let cell n stand at place i. The digit is (i - 2) modulo n, from 0 to n - 1.
/// The remaining order takes places i-1 down to 1, then places n down to i+1."
fn digits_of_names(names: &[u8]) -> Vec<u8> {
    let mut remaining = names.to_vec();
    let mut digits = Vec::with_capacity(names.len());
    for n in (1..=names.len()).rev() {
        let above = remaining.iter().take_while(|&&cell| usize::from(cell) != n).count();
        digits.push(((above + n - 1) % n) as u8);
        remaining.remove(above);
        remaining[..above].reverse();
        remaining[above..].reverse();
    }
    digits
}

/// "Digits b0 first, n of them, the last always 0, in a row of twenty with 0 past n."
pub fn digits(permutation: &Permutation) -> Result<[u8; 20], Reason> {
    Ok(padded(&digits_of_names(permutation.names()?)))
}

/// "Rank = digit + n × rank of the remaining order; one cell has rank 0."
pub(crate) fn rank_of_names(names: &[u8]) -> u64 {
    let digits = digits_of_names(names);
    (1..).zip(digits.iter().rev()).fold(0, |rank, (n, &digit)| u64::from(digit) + n * rank)
}

/// "Ranks run from 0 to n! - 1."
pub fn rank(permutation: &Permutation) -> Result<u64, Reason> {
    permutation.names().map(rank_of_names)
}

/// n!, for n up to 20: "20! = 2,432,902,008,176,640,000 fits 64 bits."
pub(crate) fn factorial(n: usize) -> u64 {
    (1..=n as u64).product()
}

/// Document 02, request 10: n!/(n-i)!, "for n from 1 to 20 in 21 places each, with 0 past i = n"
pub(crate) fn weight(n: usize, i: usize) -> u64 {
    if i <= n {
        factorial(n) / factorial(n - i)
    } else {
        0
    }
}

/// "The sum of digit bi times n!/(n-i)!, lowest digit first"
pub fn rank_by_weights(permutation: &Permutation) -> Result<u64, Reason> {
    let digits = digits_of_names(permutation.names()?);
    Ok((0..).zip(digits).map(|(i, digit)| u64::from(digit) * weight(permutation.n, i)).sum())
}

/// The order of a rank: "The rank rule decides." The digits are split off the rank, then cells 1, 2, ..., n are
/// put back, each at the place its digit tells, with both sides reflected back.
pub fn unrank(n: usize, rank: u64) -> Result<Permutation, Reason> {
    check_size(n)?;
    refuse_if(rank >= factorial(n), Reason::Value)?;
    let mut rest = rank;
    let mut digits = Vec::with_capacity(n);
    for size in (1..=n).rev() {
        digits.push((rest % size as u64) as usize);
        rest /= size as u64;
    }
    let mut names = Vec::with_capacity(n);
    for (size, digit) in (1..=n).zip(digits.into_iter().rev()) {
        let above = (digit + 1) % size;
        names[..above].reverse();
        names[above..].reverse();
        names.insert(above, size as u8);
    }
    Ok(Permutation::from_names(&names))
}
