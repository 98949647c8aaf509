//! Document 02, request 12: "Three of our settings change weekly and the rest hardly ever". What these spend by the uneven code and by the even one, for twelve settings
//! on five cells of which three come 52 times a year and nine once.

use super::{levels, permutations};
use crate::uneven::code;
use crate::{read, store, store_uneven, Reason, Spent};

/// The three have the symbols 0 to 2.
const TIMES: [u16; 12] = [52, 52, 52, 1, 1, 1, 1, 1, 1, 1, 1, 1];

/// Of each order and each symbol, the pushes of a store and the order that it leaves.
type Steps = Vec<Vec<(u32, usize)>>;

fn steps(store: impl Fn(&mut [u16], u64) -> Result<Spent, Reason>) -> Steps {
    let orders = permutations(5);
    let stored = |order: &[u8], symbol: u64| {
        let mut group = levels(order, 40, 2);
        let pushes = store(&mut group, symbol).unwrap().pushes;
        let left = read(&group).unwrap();
        (pushes, orders.iter().position(|order| left.names() == Ok(order)).unwrap())
    };
    orders.iter().map(|order| (0..12).map(|symbol| stored(order, symbol)).collect()).collect()
}

fn uneven_steps(times: &[u16; 12]) -> Steps {
    steps(|group, symbol| store_uneven(group, times, 12, symbol))
}

fn even_steps() -> Steps {
    steps(|group, symbol| store(group, 12, symbol))
}

/// The pushes of a store in the long run, on average, to three decimals. The next setting comes as often as its times say, whatever stands. So the shares of the time
/// that the orders stand settle, from any first order.
fn long_run(steps: &Steps, times: &[u16; 12], first: usize) -> String {
    let odds = times.map(|times| f64::from(times) / 165.0);
    let mut shares = vec![0.0; steps.len()];
    shares[first] = 1.0;
    for _ in 0..600 {
        let mut next = vec![0.0; steps.len()];
        for (share, steps) in shares.iter().zip(steps) {
            steps.iter().zip(odds).for_each(|(&(_, order), odds)| next[order] += share * odds);
        }
        shares = next;
    }
    let spent = |steps: &Vec<(u32, usize)>| steps.iter().zip(odds).map(|(&(pushes, _), odds)| f64::from(pushes) * odds).sum::<f64>();
    let pushes: f64 = shares.iter().zip(steps).map(|(share, steps)| share * spent(steps)).sum();
    format!("{pushes:.3}")
}

/// The three have a prefix of one cell, seven others one of two, and two one of three: 176 of 165, where the even code has two cells for each.
#[test]
fn lengths_by_weight() {
    let prefixes = code(5, &TIMES);
    assert_eq!(prefixes.iter().map(Vec::len).collect::<Vec<_>>(), [1, 1, 1, 2, 2, 2, 2, 2, 2, 2, 3, 3]);
    let sum: usize = TIMES.iter().zip(&prefixes).map(|(&times, prefix)| usize::from(times) * prefix.len()).sum();
    assert_eq!((sum, TIMES.iter().sum()), (176, 165));
}

#[test]
fn pushes_of_a_store() {
    let (uneven, even) = (uneven_steps(&TIMES), even_steps());
    for first in [0, 57, 119] {
        assert_eq!([&uneven, &even].map(|steps| long_run(steps, &TIMES, first)), ["0.752", "1.376"]);
    }
}

/// Whichever three symbols they have. The even code's prefixes are as they are, so that it depends on them.
#[test]
fn pushes_of_a_store_by_any_three_symbols() {
    let choices = (0..1_u32 << 12).filter(|choice| choice.count_ones() == 3);
    let all: Vec<[u16; 12]> = choices.map(|choice| std::array::from_fn(|symbol| if choice >> symbol & 1 == 1 { 52 } else { 1 })).collect();
    assert_eq!(all.len(), 220);
    assert!(all.iter().step_by(20).all(|times| long_run(&uneven_steps(times), times, 0) == "0.752"));
    let even = even_steps();
    let pushes: Vec<String> = all.iter().map(|times| long_run(&even, times, 0)).collect();
    assert_eq!((pushes.iter().min().unwrap().as_str(), pushes.iter().max().unwrap().as_str()), ("1.082", "1.391"));
}
