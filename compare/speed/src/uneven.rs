//! Document 02, request 12, beside a plain program that fills document 001's table of sub-problems: eight cells and 64 symbols, the largest code, by several kinds of
//! weights.
use crate::benchmarks::{inputs, levels, on_levels, Benchmark, List};
use crate::by_table;
use crate::pair::{pair, Pair};
use crate::sub_problems::{self, Fill};
use cross::cases::record;
use cross::weights::{Kind, ANY, KINDS, SHRINKING};
use cross::{spent, Random};
use model::Spent;

pub const UNEVEN: List = List { word: "uneven", other: "plain", benchmarks };

pub const CELLS: usize = 8;
pub const SYMBOLS: u64 = 64;
/// Few, since a call takes long.
const INPUTS: usize = 20;

type OfKind = fn(Kind, Fill) -> Box<dyn Pair>;

/// Each kind of weights for a prefix; of the other jobs, and beside the table tuned by hand, two of them.
fn benchmarks() -> Vec<Benchmark> {
    let of = |job: &str, pair: OfKind, kind: Kind, fill: Fill| benchmark(format!("{job}, weights {}", kind.0), move || pair(kind, fill));
    let some = [ANY, SHRINKING];
    let mut list: Vec<Benchmark> = KINDS.map(|kind| of("prefix_uneven", prefix_by_table, kind, sub_problems::plain)).into();
    list.extend(some.map(|kind| of("store_uneven", store_by_table, kind, sub_problems::plain)));
    list.extend(some.map(|kind| of("read_uneven", read_by_table, kind, sub_problems::plain)));
    list.extend(some.map(|kind| of("prefix_uneven beside a table tuned by hand", prefix_by_table, kind, sub_problems::tuned)));
    list
}

pub fn beside_the_model() -> [Benchmark; 3] {
    let names = |weights: &[u16], symbol: u64| model::prefix_uneven(CELLS, weights, SYMBOLS, symbol).unwrap();
    let prefix = move || prefix(ANY, move |weights, symbol| row(record(&names(weights, symbol))));
    let store = || store(ANY, |levels, weights, symbol| model::store_uneven(levels, weights, SYMBOLS, symbol).unwrap());
    let read = || read(ANY, |levels, weights| model::read_uneven(levels, weights, SYMBOLS).unwrap());
    [benchmark("prefix_uneven, m = 64".into(), prefix), benchmark("store_uneven, m = 64".into(), store), benchmark("read_uneven, m = 64".into(), read)]
}

fn benchmark(name: String, build: impl Fn() -> Box<dyn Pair> + 'static) -> Benchmark {
    Benchmark { name, n: Some(CELLS), passes: 1, build: Box::new(build) }
}

/// A prefix in a row, and its length.
type Row = ([u8; 20], usize);

fn row(record: turretmedlar::Permutation) -> Row {
    (record.cells, record.n)
}

/// Weights and a symbol.
type Setting = (Vec<u16>, u64);

pub fn setting(random: &mut Random, (_, weights): Kind) -> Setting {
    (weights(random, SYMBOLS as usize), random.below(SYMBOLS))
}

/// Levels on which a symbol stands, in a row, and the weights.
fn standing(random: &mut Random, kind: Kind) -> ([u16; 20], Vec<u16>) {
    let mut row = levels(random, CELLS);
    let (weights, symbol) = setting(random, kind);
    turretmedlar::store_uneven(&mut row[..CELLS], &weights, SYMBOLS, symbol).expect("below the ceiling");
    (row, weights)
}

fn prefix(kind: Kind, other: impl Fn(&[u16], u64) -> Row + 'static) -> Box<dyn Pair> {
    pair(
        inputs(INPUTS, |random| setting(random, kind)),
        |(weights, symbol), row| {
            let prefix = turretmedlar::prefix_uneven(CELLS, weights, SYMBOLS, *symbol).unwrap();
            *row = (prefix.cells, prefix.length);
        },
        move |(weights, symbol), row| *row = other(weights, *symbol),
    )
}

fn store(kind: Kind, other: impl Fn(&mut [u16], &[u16], u64) -> Spent + 'static) -> Box<dyn Pair> {
    pair(
        inputs(INPUTS, |random| (levels(random, CELLS), setting(random, kind))),
        on_levels(CELLS, |levels, (weights, symbol): &Setting, _| spent(turretmedlar::store_uneven(levels, weights, SYMBOLS, *symbol).unwrap())),
        on_levels(CELLS, move |levels, (weights, symbol): &Setting, _| other(levels, weights, *symbol)),
    )
}

fn read(kind: Kind, other: impl Fn(&[u16], &[u16]) -> u64 + 'static) -> Box<dyn Pair> {
    pair(
        inputs(INPUTS, |random| standing(random, kind)),
        |(levels, weights), symbol| *symbol = turretmedlar::read_uneven(&levels[..CELLS], weights, SYMBOLS).unwrap(),
        move |(levels, weights), symbol| *symbol = other(&levels[..CELLS], weights),
    )
}

fn prefix_by_table(kind: Kind, fill: Fill) -> Box<dyn Pair> {
    prefix(kind, move |weights, symbol| by_table::prefix(fill, CELLS, weights, SYMBOLS, symbol).unwrap())
}

fn store_by_table(kind: Kind, fill: Fill) -> Box<dyn Pair> {
    store(kind, move |levels, weights, symbol| by_table::store(fill, levels, weights, SYMBOLS, symbol).unwrap())
}

fn read_by_table(kind: Kind, fill: Fill) -> Box<dyn Pair> {
    read(kind, move |levels, weights| by_table::read(fill, levels, weights, SYMBOLS).unwrap())
}

#[cfg(test)]
mod tests {
    use super::*;
    use cross::cases::{lists, uneven_codes};

    /// Both programs against the model; what it refuses they do not do.
    fn compare(n: usize, levels: &[u16], weights: &[u16], m: u64, symbol: u64) {
        for fill in [sub_problems::plain, sub_problems::tuned] {
            let prefix = by_table::prefix(fill, n, weights, m, symbol).map(|(cells, length)| cells[..length].to_vec());
            assert_eq!(prefix, model::prefix_uneven(n, weights, m, symbol).ok(), "{n} {weights:?} {m} {symbol}");
            let (mut left, mut expected) = (levels.to_vec(), levels.to_vec());
            let spent = by_table::store(fill, &mut left, weights, m, symbol);
            assert_eq!(spent, model::store_uneven(&mut expected, weights, m, symbol).ok(), "{levels:?} {weights:?} {m} {symbol}");
            assert_eq!(left, expected, "{levels:?} {weights:?} {m} {symbol}");
            assert_eq!(by_table::read(fill, levels, weights, m), model::read_uneven(levels, weights, m).ok(), "{levels:?} {weights:?} {m}");
        }
    }

    #[test]
    fn programs_by_table_do_what_the_model_does() {
        let mut random = Random::seeded(120);
        for (n, m) in uneven_codes() {
            let (_, weights) = random.pick(&KINDS);
            let weights = weights(&mut random, m);
            compare(n, &random.group(n), &weights, m as u64, random.below(m as u64));
        }
        for weights in (2..=6).flat_map(|m| lists(&[0, 1, 2], m)) {
            let m = weights.len() as u64;
            compare(3, &random.group(3), &weights, m, random.below(m));
        }
    }

    #[test]
    fn programs_by_table_refuse_what_the_model_refuses() {
        let mut random = Random::seeded(121);
        for (n, m) in (0..=12).flat_map(|n| [0, 1, 2, 3, 24, 25, 64, 65, u64::MAX].map(|m| (n, m))) {
            let names = random.names(n);
            for (entries, symbol) in [(m, 0), (m, m), (m.wrapping_sub(1), 0), (m.wrapping_add(1), 1)] {
                let (levels, weights) = (random.levels(&names, 300), vec![1; entries.min(70) as usize]);
                compare(n, &levels, &weights, m, symbol);
                compare(n, &vec![7; n], &weights, m, symbol);
            }
        }
    }
}
