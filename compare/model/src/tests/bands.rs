//! Bands instead of levels: document 02, request 4.

use super::{choose, permutation, permutations, prefixes};
use crate::levels::level;
use crate::symbols::prefix_length;
use crate::Reason::{self, Fit, Idle, Size, Unsure, Value};
use crate::{read, read_bands, read_symbol, read_symbol_bands};

/// "Every choice of one level from each band"
fn choices(lowest: &[u16], highest: &[u16]) -> Vec<Vec<u16>> {
    let longer = |lists: Vec<Vec<u16>>, (&lowest, &highest): (&u16, &u16)| {
        let chosen = |list: Vec<u16>| (lowest..=highest).map(move |level| [&list[..], &[level]].concat());
        lists.into_iter().flat_map(chosen).collect()
    };
    lowest.iter().zip(highest).fold(vec![vec![]], longer)
}

/// All bands of n cells, with levels up to this one.
fn bands(n: usize, most: u16) -> impl Iterator<Item = (Vec<u16>, Vec<u16>)> {
    let top = vec![most; n];
    let of = move |lowest: Vec<u16>| choices(&lowest, &top).into_iter().map(move |highest| (lowest.clone(), highest));
    choices(&vec![0; n], &vec![most; n]).into_iter().flat_map(of)
}

/// "Has no tie and yields that same order", which "lists the names from highest level to lowest"
fn yields(levels: &[u16], names: &[u8]) -> bool {
    let no_tie = (0..levels.len()).all(|cell| !levels[..cell].contains(&levels[cell]));
    no_tie && names.windows(2).all(|pair| level(levels, pair[0]) >= level(levels, pair[1]))
}

/// "The same p cells lead in the same sequence, each strictly above all cells below it"
fn leads(levels: &[u16], prefix: &[u8]) -> bool {
    (0..prefix.len()).all(|place| {
        let mut below = (1..=levels.len() as u8).filter(|cell| !prefix[..=place].contains(cell));
        below.all(|cell| level(levels, prefix[place]) > level(levels, cell))
    })
}

/// The index of the one row of names of which this holds in every choice, if there is one.
fn sure(choices: &[Vec<u16>], rows: &[Vec<u8>], holds: fn(&[u16], &[u8]) -> bool) -> Option<usize> {
    let sure = |&row: &usize| choices.iter().all(|levels| holds(levels, &rows[row]));
    let found: Vec<usize> = (0..rows.len()).filter(sure).collect();
    assert!(found.len() <= 1, "{found:?} of {rows:?}");
    found.first().copied()
}

/// Both readings of all these bands, in every code, beside what holds in every choice. "Ties further down don't matter." Gives the number of sure orders.
fn check_by_choices(n: usize, most: u16) -> usize {
    let (all, prefixes): (_, Vec<_>) = (permutations(n), (0..=n).map(|p| prefixes(n, p)).collect());
    let mut orders = 0;
    for (lowest, highest) in bands(n, most) {
        let choices = choices(&lowest, &highest);
        let order = sure(&choices, &all, yields);
        assert_eq!(read_bands(&lowest, &highest), order.map(|row| permutation(&all[row])).ok_or(Unsure), "{lowest:?} {highest:?}");
        orders += usize::from(order.is_some());
        let leading: Vec<Option<usize>> = prefixes.iter().map(|rows| sure(&choices, rows, leads)).collect();
        assert_eq!(leading[n - 1].is_some(), order.is_some(), "n - 1 cells lead surely exactly when the order is sure");
        for m in 1..=all.len() {
            let p = prefixes.iter().position(|rows| rows.len() >= m).unwrap();
            let expected = leading[p].ok_or(Unsure).and_then(|number| if number < m { Ok(number as u64) } else { Err(Idle) });
            assert_eq!(read_symbol_bands(&lowest, &highest, m as u64), expected, "{lowest:?} {highest:?} {m}");
        }
    }
    orders
}

/// Sure bands lie one above another, in any of n! orders. There are as many of an order as there are ways to take 2n out of n more than there are levels:
/// l1 <= h1 < l2 <= h2 < .. is l1 < h1 + 1 < l2 + 1 < h2 + 2 < ..
#[test]
fn held_to_every_choice() {
    for (n, most) in [(2, 6), (3, 5), (4, 4)] {
        let levels = usize::from(most) + 1;
        assert_eq!(check_by_choices(n, most), permutations(n).len() * choose(levels + n, 2 * n), "{n} cells");
    }
}

/// Without a tie they are levels. With one the order is unsure, and so is a symbol with a tied cell among its first p; any other is what is read however the tie
/// is broken.
#[test]
fn bands_of_one_level() {
    for levels in (2..=4).flat_map(|n| choices(&vec![0; n], &vec![4; n])) {
        let n = levels.len();
        let broken = [[0, 1, 2, 3], [3, 2, 1, 0]].map(|more| (0..n).map(|cell| 4 * levels[cell] + more[cell]).collect::<Vec<u16>>());
        let mut rising = levels.clone();
        rising.sort_unstable();
        assert_eq!(read_bands(&levels, &levels), read(&levels).map_err(|_| Unsure), "{levels:?}");
        for m in 1..=permutations(n).len() as u64 {
            let tied = rising[n - 1 - prefix_length(n, m)..].windows(2).any(|pair| pair[0] == pair[1]);
            for broken in &broken {
                let expected = if tied { Err(Unsure) } else { read_symbol(broken, m) };
                assert_eq!(read_symbol_bands(&levels, &levels, m), expected, "{levels:?} {m}");
            }
        }
    }
}

/// Bands of ten levels side by side, then one of them longer by a level, so that it has a level with the next: from that place on nothing is sure.
#[test]
fn bands_that_touch() {
    for n in 2..=20_u8 {
        let lowest: Vec<u16> = (0..u16::from(n)).rev().map(|below| 10 * below).collect();
        let highest: Vec<u16> = lowest.iter().map(|level| level + 9).collect();
        let names: Vec<u8> = (1..=n).collect();
        assert_eq!(read_bands(&lowest, &highest), Ok(permutation(&names)));
        for place in 1..usize::from(n) {
            let (mut lower, mut higher) = (lowest.clone(), highest.clone());
            lower[place - 1] -= 1;
            higher[place] += 1;
            for (lowest, highest) in [(&lower, &highest), (&lowest, &higher)] {
                assert_eq!(read_bands(lowest, highest), Err(Unsure));
                for p in 0..usize::from(n) {
                    let m = (0..p as u64).map(|taken| u64::from(n) - taken).product();
                    let expected = if p < place { Ok(0) } else { Err(Unsure) };
                    assert_eq!(read_symbol_bands(lowest, highest, m), expected, "{lowest:?} {highest:?} {m}");
                }
            }
        }
    }
}

#[test]
fn ends_of_the_range() {
    let table = [
        ([0, 1], [0, 65_535], Ok([2, 1])),
        ([0, 65_535], [65_534, 65_535], Ok([2, 1])),
        ([65_535, 0], [65_535, 0], Ok([1, 2])),
        ([1, 0], [65_535, 0], Ok([1, 2])),
        ([0, 0], [0, 65_535], Err(Unsure)),
        ([0, 65_535], [65_535, 65_535], Err(Unsure)),
        ([0, 0], [65_535, 65_535], Err(Unsure)),
        ([0, 0], [0, 0], Err(Unsure)),
        ([65_535, 65_535], [65_535, 65_535], Err(Unsure)),
        ([65_535, 0], [65_534, 0], Err(Value)),
        ([0, 1], [65_535, 0], Err(Value)),
    ];
    for (lowest, highest, expected) in table {
        assert_eq!(read_bands(&lowest, &highest), expected.map(|names| permutation(&names)), "{lowest:?} {highest:?}");
        assert_eq!(read_symbol_bands(&lowest, &highest, 2), expected.map(|names| u64::from(names[0]) - 1));
        assert_eq!(read_symbol_bands(&lowest, &highest, 1), if expected == Err(Value) { Err(Value) } else { Ok(0) });
    }
}

/// "10 unsure, when the condition fails; for a symbol it comes before idle." Cell 3 leads; then cell 2 does, or one of cells 1 and 2, or they tie. On three
/// cells two and three symbols have p = 1, four to six p = 2. Prefix [3] is number 2, [3,1] and [3,2] are 4 and 5, so that of four symbols any that leads is idle.
#[test]
fn unsure_before_idle() {
    let table =
        [(1, Ok(0), Ok(0)), (2, Err(Idle), Err(Idle)), (3, Ok(2), Ok(2)), (4, Err(Idle), Err(Unsure)), (5, Err(Idle), Err(Unsure)), (6, Ok(5), Err(Unsure))];
    for (m, apart, crossing) in table {
        let read = [2, 4].map(|level| read_symbol_bands(&[1, 3, 7], &[level, 5, 7], m));
        assert_eq!(read, [apart, crossing], "{m}");
    }
}

/// The two lists and m.
type Lent = (Vec<u16>, Vec<u16>, u64);

/// The reason of a fault, whether it is one of m, and how to make it.
type Fault = (Reason, bool, fn(&mut Lent));

/// Faults of bands that are read as [3,2,1], in the sequence in which they are judged.
const FAULTS: [Fault; 9] = [
    (Size, false, |lent| lent.0.truncate(1)),
    (Size, false, |lent| lent.0.resize(21, 50)),
    (Fit, false, |lent| lent.1.truncate(2)),
    (Fit, false, |lent| lent.1.push(60)),
    (Value, false, |lent| lent.0[0] = lent.1[0] + 1),
    (Value, true, |lent| lent.2 = 7),
    (Value, true, |lent| lent.2 = 0),
    (Unsure, false, |lent| lent.1[1] = lent.0[2]),
    (Idle, true, |lent| lent.2 = 4),
];

/// Every choice of these faults, made from the last to the first.
#[test]
fn refusals_in_sequence() {
    for choice in 0..1_u32 << FAULTS.len() {
        let (mut lent, mut order, mut symbol) = ((vec![10, 20, 30], vec![12, 22, 32], 6), None, None);
        for (_, (reason, of_m, fault)) in FAULTS.iter().enumerate().filter(|(place, _)| choice >> place & 1 == 1).rev() {
            fault(&mut lent);
            symbol = Some(*reason);
            order = if *of_m { order } else { symbol };
        }
        assert_eq!(read_bands(&lent.0, &lent.1).err(), order, "{choice:b}");
        assert_eq!(read_symbol_bands(&lent.0, &lent.1, lent.2).err(), symbol, "{choice:b}");
    }
    assert_eq!(read_bands(&[], &[]), Err(Size));
    assert_eq!(read_symbol_bands(&[], &[1], 0), Err(Size));
}
