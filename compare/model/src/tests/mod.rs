//! The model, held to the definitions and claims of documents 01 and 02.

mod arrangements;
mod bands;
mod changes;
mod charge;
mod definitions;
mod reach;
mod readings;
mod refusals;
mod sheets;
mod uneven_code;
mod uneven_jobs;
mod weekly;
mod writing;
mod zeros;

use crate::{read, Permutation, Reason, Spent};
use std::collections::{BTreeMap, VecDeque};

/// All lists of p different names out of 1 to n, in lexicographic sequence.
fn prefixes(n: usize, p: usize) -> Vec<Vec<u8>> {
    let mut lists = vec![Vec::new()];
    for _ in 0..p {
        let longer = |list: &Vec<u8>| {
            let unused = (1..=n as u8).filter(|cell| !list.contains(cell));
            unused.map(|cell| [&list[..], &[cell]].concat()).collect::<Vec<_>>()
        };
        lists = lists.iter().flat_map(longer).collect();
    }
    lists
}

/// All permutations of n cells, in lexicographic sequence.
fn permutations(n: usize) -> Vec<Vec<u8>> {
    prefixes(n, n)
}

/// All lists of so many of the values.
fn lists<T: Copy>(values: &[T], length: usize) -> Vec<Vec<T>> {
    let longer = |list: &Vec<T>| values.iter().map(|&value| [&list[..], &[value]].concat()).collect::<Vec<_>>();
    (0..length).fold(vec![vec![]], |lists, _| lists.iter().flat_map(longer).collect())
}

/// How many ways there are to take so many out of so many.
fn choose(from: usize, count: usize) -> usize {
    (0..count).fold(1, |ways, taken| ways * (from - taken) / (taken + 1))
}

/// The high bits of a linear congruential sequence: the same numbers in every run, each below its bound.
struct Numbers(u64);

impl Numbers {
    fn below(&mut self, bound: u64) -> u64 {
        self.0 = self.0.wrapping_mul(6_364_136_223_846_793_005).wrapping_add(1_442_695_040_888_963_407);
        (self.0 >> 33) % bound
    }
}

fn permutation(names: &[u8]) -> Permutation {
    let mut cells = [0; 20];
    for (place, &cell) in names.iter().enumerate() {
        cells[place] = cell;
    }
    Permutation { n: names.len(), cells }
}

/// Levels whose order this is: `top` on top, each other one `gap` below the one above it.
fn levels(names: &[u8], top: u16, gap: u16) -> Vec<u16> {
    let mut levels = vec![0; names.len()];
    for (place, &cell) in (0..).zip(names) {
        levels[usize::from(cell) - 1] = top - place * gap;
    }
    levels
}

/// A push by its sentence: the cell at the place moves to place 1, and those above it move down one.
fn pushed(names: &[u8], place: usize) -> Vec<u8> {
    let mut names = names.to_vec();
    let cell = names.remove(place - 1);
    names.insert(0, cell);
    names
}

/// The least number of pushes from one permutation to every other, breadth first.
fn distances(start: &[u8]) -> BTreeMap<Vec<u8>, u32> {
    let mut known = BTreeMap::from([(start.to_vec(), 0)]);
    let mut queue = VecDeque::from([start.to_vec()]);
    while let Some(names) = queue.pop_front() {
        let next_distance = known[&names] + 1;
        for place in 2..=names.len() {
            let next = pushed(&names, place);
            if !known.contains_key(&next) {
                known.insert(next.clone(), next_distance);
                queue.push_back(next);
            }
        }
    }
    known
}

/// Pushes these cells by the sentences: each to the top plus 1. Gives the total of the jumps, each the new level less the old.
fn replay(group: &mut [u16], cells: impl IntoIterator<Item = u8>) -> u32 {
    let jumps = cells.into_iter().map(|cell| {
        let (new, index) = (group.iter().max().unwrap() + 1, usize::from(cell) - 1);
        let old = std::mem::replace(&mut group[index], new);
        u32::from(new - old)
    });
    jumps.sum()
}

/// A store of what has this prefix takes the least number of pushes to any permutation with that prefix, by the distances from the one that stands, and leaves the other
/// cells in their old sequence. Gives the levels that it leaves.
fn check_store(known: &BTreeMap<Vec<u8>, u32>, before: &[u16], prefix: &[u8], store: impl Fn(&mut [u16]) -> Result<Spent, Reason>) -> Vec<u16> {
    let least = known.iter().filter(|(names, _)| names.starts_with(prefix)).map(|(_, &distance)| distance).min().unwrap();
    let (mut after, mut replayed) = (before.to_vec(), before.to_vec());
    let charge = replay(&mut replayed, prefix[..least as usize].iter().rev().copied());
    assert_eq!(store(&mut after), Ok(Spent { pushes: least, charge }));
    assert_eq!(after, replayed);
    let start = read(before).unwrap();
    let others: Vec<u8> = start.names().unwrap().iter().copied().filter(|cell| !prefix.contains(cell)).collect();
    assert_eq!(read(&after), Ok(permutation(&[prefix, &others].concat())));
    after
}
