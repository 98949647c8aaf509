//! Settings used unevenly: document 02, request 12. Storing and reading by these codes, and refusals.

use super::uneven_code::{FIGURE, WEIGHTS};
use super::{check_store, distances, levels, permutation, permutations, Numbers};
use crate::permutations::factorial;
use crate::uneven::code;
use crate::Reason::{self, Ceiling, Fit, Idle, Size, Tie, Value};
use crate::{prefix_uneven, read, read_uneven, store_uneven, Spent};

/// Example 21: "the mapping from the permutations to the information symbols", counted from 0.
#[test]
fn example_21_read() {
    let table: [&[&[u8]]; 9] = [
        &[&[1, 2, 3, 4], &[1, 2, 4, 3], &[1, 4, 3, 2]],
        &[&[2, 1, 3, 4], &[2, 1, 4, 3], &[2, 4, 3, 1]],
        &[&[3, 1, 2, 4], &[3, 1, 4, 2]],
        &[&[3, 2, 1, 4], &[3, 2, 4, 1]],
        &[&[3, 4, 1, 2], &[3, 4, 2, 1]],
        &[&[4, 1, 2, 3], &[4, 1, 3, 2]],
        &[&[4, 2, 1, 3], &[4, 2, 3, 1]],
        &[&[4, 3, 1, 2]],
        &[&[4, 3, 2, 1]],
    ];
    for (symbol, orders) in (0..).zip(table) {
        assert_eq!(prefix_uneven(4, &WEIGHTS, 9, symbol), Ok(FIGURE[symbol as usize].to_vec()));
        assert!(orders.iter().all(|order| read_uneven(&levels(order, 9, 2), &WEIGHTS, 9) == Ok(symbol)), "{symbol}");
    }
}

/// "Shift cells 3, 4 to the top": cell 3 goes from 2 to 5, and cell 4 from 1 to 6. "This rewrite cost is 2, which does not exceed |a_8| = 3."
#[test]
fn example_21_stored() {
    let mut group = levels(&[1, 2, 3, 4], 4, 1);
    assert_eq!(store_uneven(&mut group, &WEIGHTS, 9, 7), Ok(Spent { pushes: 2, charge: 3 + 5 }));
    assert_eq!((read(&group), group), (Ok(permutation(&[4, 3, 1, 2])), vec![4, 3, 5, 6]));
}

/// "In general, given any current state, considering all the possible rewrites, the expected rewrite cost is always less than" the average length, here 76 of 45.
#[test]
fn example_21_on_average() {
    let length: usize = WEIGHTS.iter().zip(FIGURE).map(|(&weight, prefix)| usize::from(weight) * prefix.len()).sum();
    assert_eq!((length, WEIGHTS.iter().sum()), (76, 45));
    for order in permutations(4) {
        let pushes = |symbol: usize| store_uneven(&mut levels(&order, 9, 2), &WEIGHTS, 9, symbol as u64).unwrap().pushes as usize;
        assert!((0..9).map(|symbol| usize::from(WEIGHTS[symbol]) * pushes(symbol)).sum::<usize>() < length, "{order:?}");
    }
}

/// On one order all symbols: each is stored by the least number of pushes, at most the length of its prefix, and read back; then it stands, and needs none. The order
/// itself is idle just where none of the prefixes leads it.
fn check_symbols(start: &[u8], weights: &[u16]) -> bool {
    let (m, before, known) = (weights.len() as u64, levels(start, 40, 2), distances(start));
    let prefixes = code(start.len(), weights);
    for (symbol, prefix) in (0..).zip(&prefixes) {
        let mut after = check_store(&known, &before, prefix, |lent| store_uneven(lent, weights, m, symbol));
        assert_eq!(read_uneven(&after, weights, m), Ok(symbol), "{start:?} {weights:?}");
        assert_eq!(store_uneven(&mut after, weights, m, symbol), Ok(Spent::default()), "{start:?} {weights:?}");
    }
    let leading: Vec<u64> = (0..).zip(&prefixes).filter(|(_, prefix)| start.starts_with(prefix)).map(|(symbol, _)| symbol).collect();
    let read = read_uneven(&before, weights, m);
    assert_eq!(read.map_or_else(|_| vec![], |symbol| vec![symbol]), leading, "{start:?} {weights:?}");
    assert!(read.is_ok() || read == Err(Idle));
    read.is_ok()
}

/// All orders of up to four cells, and some of five: a prefix leads (n - length)! orders, and all others are idle.
#[test]
fn stored_by_the_least_pushes_and_read_back() {
    let mut numbers = Numbers(16);
    let small = (2..=4).flat_map(|n| (2..=factorial(n) as usize).map(move |m| (n, m)));
    for (n, m) in small.chain([(5, 5), (5, 6), (5, 12), (5, 21)]) {
        for weights in numbers.weights(m) {
            let orders = permutations(n);
            let step = if n == 5 { 17 } else { 1 };
            let taken = orders.iter().step_by(step).filter(|start| check_symbols(start, &weights)).count() as u64;
            let led: u64 = code(n, &weights).iter().map(|prefix| factorial(n - prefix.len())).sum();
            assert!(n == 5 || taken == led, "{n} cells, {weights:?}");
        }
    }
}

/// One store after another on eight cells: each is read back.
#[test]
fn stores_one_after_another() {
    let mut numbers = Numbers(17);
    for m in [2, 9, 33, 64] {
        for weights in numbers.weights(m as usize) {
            let mut group = levels(&[8, 3, 5, 1, 7, 2, 6, 4], 100, 9);
            for symbol in (0..10).map(|_| numbers.below(m)) {
                let spent = store_uneven(&mut group, &weights, m, symbol).unwrap();
                let prefix = prefix_uneven(8, &weights, m, symbol).unwrap();
                assert!(spent.pushes as usize <= prefix.len());
                assert_eq!(read_uneven(&group, &weights, m), Ok(symbol), "{weights:?}");
            }
        }
    }
}

/// "Ceiling is judged on the new number."
#[test]
fn ceilings() {
    for (symbol, pushes) in (0..9).zip([0, 1, 1, 2, 2, 1, 2, 2, 3]) {
        for top in 65_530..=65_535 {
            let before = levels(&[1, 2, 3, 4], top, 1);
            let mut group = before.clone();
            let spent = store_uneven(&mut group, &WEIGHTS, 9, symbol);
            if u32::from(top) + pushes <= 65_535 {
                assert_eq!(spent.map(|spent| spent.pushes), Ok(pushes), "{symbol} {top}");
            } else {
                assert_eq!((spent, group), (Err(Ceiling), before), "{symbol} {top}");
            }
        }
    }
}

/// All that is handed in.
struct Lent {
    levels: Vec<u16>,
    weights: Vec<u16>,
    m: u64,
    symbol: u64,
}

impl Lent {
    /// The reasons, if any, of a prefix on so many cells, of a store and of a read. Refused, the levels keep their values.
    fn reasons(&self) -> [Option<Reason>; 3] {
        let mut levels = self.levels.clone();
        let prefix = prefix_uneven(self.levels.len(), &self.weights, self.m, self.symbol).err();
        let store = store_uneven(&mut levels, &self.weights, self.m, self.symbol).err();
        assert!(store.is_none() || levels == self.levels);
        [prefix, store, read_uneven(&self.levels, &self.weights, self.m).err()]
    }
}

/// The reasons of a fault, of the three jobs, and how to make it.
type Fault = ([Option<Reason>; 3], fn(&mut Lent));

/// Other weights, so many.
fn weigh(lent: &mut Lent, m: u64) {
    (lent.weights, lent.m) = (vec![1; m as usize], m);
}

/// Faults of three symbols on four cells, in the sequence in which they are judged. With cell 4 on top of the others, at the ceiling, there is no symbol, and no push.
const FAULTS: [Fault; 12] = [
    ([Some(Size); 3], |lent| lent.levels.truncate(1)),
    ([Some(Size); 3], |lent| lent.levels.resize(9, 7)),
    ([Some(Fit); 3], |lent| lent.weights.push(0)),
    ([Some(Fit); 3], |lent| lent.m ^= 1 << 32),
    ([None, Some(Tie), Some(Tie)], |lent| lent.levels[1] = lent.levels[3]),
    ([Some(Value); 3], |lent| weigh(lent, 0)),
    ([Some(Value); 3], |lent| weigh(lent, 1)),
    ([Some(Value); 3], |lent| weigh(lent, 25)),
    ([Some(Value); 3], |lent| weigh(lent, 65)),
    ([Some(Value), Some(Value), None], |lent| lent.symbol = 3),
    ([Some(Value), Some(Value), None], |lent| lent.symbol = u64::MAX),
    ([None, Some(Ceiling), Some(Idle)], |lent| lent.levels[3] = 65_535),
];

/// Every choice of these faults, made from the last to the first.
#[test]
fn refusals_in_sequence() {
    for choice in 0..1_u32 << FAULTS.len() {
        let mut lent = Lent { levels: vec![40, 30, 20, 10], weights: vec![5, 9, 7], m: 3, symbol: 0 };
        let mut first = [None; 3];
        for (_, (reasons, fault)) in FAULTS.iter().enumerate().filter(|(place, _)| choice >> place & 1 == 1).rev() {
            fault(&mut lent);
            first = std::array::from_fn(|job| reasons[job].or(first[job]));
        }
        assert_eq!(lent.reasons(), first, "{choice:b}");
    }
}

/// Numbers of cells, of symbols and of weights in their ranges, at their ends and past all; equal levels; symbols below m and not.
#[test]
fn numbers_past_all_ranges() {
    let many = [0, 1, 2, 3, 5, 6, 7, 23, 24, 25, 63, 64, 65, 66, 1 << 32 | 3, u64::MAX];
    for (n, m) in (0..=12).flat_map(|n| many.map(|m| (n, m))) {
        for (entries, tie) in [m, m.wrapping_sub(1), m.wrapping_add(1), 0, 3].into_iter().flat_map(|entries| [(entries, false), (entries, true)]) {
            let weights = vec![1; entries.min(70) as usize];
            let mut levels: Vec<u16> = (100..100 + n).collect();
            if tie && n > 1 {
                levels[0] = levels[1];
            }
            let before = if !(2..=8).contains(&n) {
                Some(Size)
            } else if weights.len() as u64 != m {
                Some(Fit)
            } else {
                None
            };
            let wrong = !(2..=64).contains(&m) || m > factorial(n.into());
            for symbol in [0, 1, m.wrapping_sub(1), m, u64::MAX] {
                let [of_symbol, of_read] = [wrong || symbol >= m, wrong].map(|wrong| wrong.then_some(Value));
                let tie = tie.then_some(Tie);
                let [prefix, store, read] = Lent { levels: levels.clone(), weights: weights.clone(), m, symbol }.reasons();
                assert_eq!((prefix, store), (before.or(of_symbol), before.or(tie).or(of_symbol)), "{n} {m} {entries} {symbol}");
                assert_eq!(read.filter(|&reason| reason != Idle), before.or(tie).or(of_read), "{n} {m} {entries}");
            }
        }
    }
    for n in [0, 1, 9, 20, 255, 258, 1 << 32 | 4, usize::MAX] {
        assert_eq!(prefix_uneven(n, &[], u64::MAX, u64::MAX), Err(Size), "{n}");
    }
}
