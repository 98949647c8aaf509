//! Document 02, request 10: "Measure against a plain Rust program, written for this, that copies the remaining order at each digit: one million orders of 20 cells,
//! same machine, both optimised." Beside these stand ranks tuned by hand and, where it is linked (`TM_BEFORE` of `build.rs`), another build of the library.
use crate::table::{counted, nanoseconds, number, print_table};
use crate::timing::{times, Times};
use crate::{by_mask, counting, plain};
use cross::cases::record;
use cross::Random;
use std::hint::black_box;
use std::time::Instant;
use turretmedlar::raw::Ranked;
use turretmedlar::Permutation;

/// The word that asks for this table. With an index in the list of programs and a number of passes: run that program, on fewer orders.
pub const RANKS: &str = "ranks";

const CELLS: usize = 20;
const ORDERS: usize = 1_000_000;
/// So many are enough to count instructions.
const COUNTED: usize = 10_000;
/// Odd, so that there is a middle round.
const ROUNDS: usize = 31;

/// The sum of the ranks, modulo 2^64.
type Pass = fn(&[Permutation]) -> u64;

// One copy for each program, so that no call goes through a pointer.
fn total(orders: &[Permutation], rank: impl Fn(Permutation) -> Option<u64>) -> u64 {
    orders.iter().fold(0, |sum, order| sum.wrapping_add(rank(*black_box(order)).expect("a permutation")))
}

// Both builds are declared here, so that they are called alike.
extern "C" {
    fn tm_rank(permutation: Permutation) -> Ranked;
    #[cfg(before)]
    fn before_tm_rank(permutation: Permutation) -> Ranked;
}

fn programs() -> Vec<(&'static str, Pass)> {
    let mut list: Vec<(_, Pass)> = vec![
        ("plain, each remaining order in a new row", |orders| total(orders, |order| plain::rank(order.n, &order.cells))),
        ("plain, in a new list", |orders| total(orders, |order| plain::rank_by_lists(order.n, &order.cells))),
        ("by hand, by mask and bit count", |orders| total(orders, |order| by_mask::rank(order.n, &order.cells))),
    ];
    if std::arch::is_x86_feature_detected!("popcnt") {
        // Safe: the processor has the instruction.
        let pass: Pass = |orders| total(orders, |order| unsafe { by_mask::rank_popcnt(order.n, &order.cells) });
        list.push(("the same, with the processor's own bit count", pass));
    }
    // Safe: the library takes every value.
    #[cfg(before)]
    list.push(("the other build of the library", |orders| total(orders, |order| done(unsafe { before_tm_rank(order) }))));
    list.push(("ours", |orders| total(orders, |order| done(unsafe { tm_rank(order) }))));
    list
}

fn done(answer: Ranked) -> Option<u64> {
    (answer.number == 0).then_some(answer.rank)
}

fn orders(count: usize) -> Vec<Permutation> {
    let mut random = Random::seeded(0);
    (0..count).map(|_| record(&random.names(CELLS))).collect()
}

pub fn run(index: usize, passes: usize) {
    let (orders, (_, pass)) = (orders(COUNTED), programs()[index]);
    (0..passes).for_each(|_| {
        black_box(pass(black_box(&orders)));
    });
}

/// Of each program, by alternating rounds. A first round is not counted; in every round all programs have the same sum.
fn time(programs: &[(&str, Pass)]) -> Vec<Times> {
    let orders = orders(ORDERS);
    let mut found = vec![vec![]; programs.len()];
    let mut sums = vec![];
    for round in 0..=ROUNDS {
        for ((_, pass), found) in programs.iter().zip(&mut found) {
            let start = Instant::now();
            sums.push(pass(black_box(&orders)));
            if round > 0 {
                found.push(start.elapsed().as_secs_f64() * 1e9 / ORDERS as f64);
            }
        }
    }
    assert!(sums.iter().all(|&sum| sum == sums[0]), "ranks differ");
    found.into_iter().map(times).collect()
}

pub fn print() {
    let (programs, counted) = (programs(), counted());
    let found = time(&programs);
    let row = |(index, (&(name, _), times)): (usize, (&(&str, Pass), &Times))| {
        let count = || number(counting::count_call(&[RANKS, &index.to_string()], 1, COUNTED));
        vec![name.into(), nanoseconds(times), format!("{:.2}", found[0].best / times.best), if counted { count() } else { "-".into() }]
    };
    print_table(&["rank, 20 cells", "ns", "plain / this", "instructions"], programs.iter().zip(&found).enumerate().map(row));
}

#[cfg(test)]
mod tests {
    use super::*;
    use cross::cases::{permutations, WRONG_SIZES};
    use cross::twin;

    /// Against the model, which refuses what is no permutation.
    fn compare(order: Permutation) {
        let expected = model::rank(&twin(order)).ok();
        assert_eq!(plain::rank(order.n, &order.cells), expected, "{order:?}");
        assert_eq!(plain::rank_by_lists(order.n, &order.cells), expected, "{order:?}");
        assert_eq!(by_mask::rank(order.n, &order.cells), expected, "{order:?}");
        if std::arch::is_x86_feature_detected!("popcnt") {
            assert_eq!(unsafe { by_mask::rank_popcnt(order.n, &order.cells) }, expected, "{order:?}");
        }
    }

    #[test]
    fn all_programs_give_the_rank() {
        (2..=7).flat_map(permutations).for_each(|names| compare(record(&names)));
        let mut random = Random::seeded(110);
        (2..=20).flat_map(|n| [n; 200]).for_each(|n| compare(record(&random.names(n))));
    }

    #[test]
    fn no_program_takes_what_is_no_permutation() {
        let mut random = Random::seeded(111);
        for n in (2..=20).flat_map(|n| [n; 200]) {
            let mut damaged = record(&random.names(n));
            damaged.cells[random.index(20)] = random.number() as u8;
            compare(damaged);
        }
        let order = record(&random.names(20));
        WRONG_SIZES.into_iter().for_each(|n| compare(Permutation { n, ..order }));
    }

    #[test]
    fn a_pass_has_the_same_sum_by_every_program() {
        let orders = orders(1_000);
        let sums: Vec<u64> = programs().iter().map(|(_, pass)| pass(&orders)).collect();
        assert!(sums.iter().all(|&sum| sum == sums[0]), "{sums:?}");
    }
}
