//! The list of benchmarks. No input is refused: `unwrap` holds this for both sides.
use crate::pair::{pair, Pair};
use crate::uneven;
use cross::cases::{factorial, falling, record, CEILING};
use cross::{held, spent, twin, Random};
use std::path::Path;

/// One table.
pub struct List {
    /// The word that asks for it, and for its counts.
    pub word: &'static str,
    /// What ours is measured beside.
    pub other: &'static str,
    pub benchmarks: fn() -> Vec<Benchmark>,
}

/// All jobs, where no other is asked for.
pub const JOBS: List = List { word: "jobs", other: "model", benchmarks };

pub struct Benchmark {
    pub name: String,
    /// None for a sheet.
    pub n: Option<usize>,
    /// How often a round goes over all inputs.
    pub passes: usize,
    /// Makes the inputs.
    pub build: Box<dyn Fn() -> Box<dyn Pair>>,
}

/// Inputs of a job: so many that a branch predictor does not learn them by heart.
const INPUTS: usize = 10_000;
const SIZES: [usize; 3] = [4, 8, 20];
/// Of count up: k, its name, and the number of inputs, fewer where a call takes long.
const COUNTS: [(u32, &str, usize); 3] = [(1, "1", INPUTS), (100, "100", INPUTS / 10), (60_000, "60,000", 10)];
/// Of listings: n, r, and the number of inputs, fewer where a call takes long. None is longer than that of eight cells.
const LISTINGS: [(usize, usize, usize); 3] = [(4, 2, INPUTS), (8, 5, 10), (20, 2, 100)];
/// Of arrangements: q and z.
const ARRANGEMENTS: [(usize, usize); 2] = [(4, 2), (16, 4)];
/// Files of bench sheets, each with what it has and the passes of a round.
const SHEETS: [(&str, &str, usize); 5] = [
    ("paper", "document 01's, 1 group, 3 commands", 500),
    ("sixty-four-groups-no-commands", "64 groups, no command", 100),
    ("longest", "64 groups on the new zero, 1,000 rewrites", 10),
    ("thousand-counts", "64 groups, 1,000 count-ups of 60", 10),
    ("thousand-stores", "64 groups, 1,000 stores", 10),
];
/// Those that are written too.
const WRITTEN: [&str; 3] = ["paper", "longest", "thousand-stores"];

type OfSize = fn(usize) -> Box<dyn Pair>;

fn benchmarks() -> Vec<Benchmark> {
    let jobs: [(&str, OfSize); 12] = [
        ("digits", digits),
        ("rank", rank),
        ("unrank", unrank),
        ("value", value),
        ("permutation_of_value", permutation_of_value),
        ("read", read),
        ("rewrite", rewrite),
        ("store", store),
        ("store, standing", store_standing),
        ("read_symbol", read_symbol),
        ("read_bands", read_bands),
        ("read_symbol_bands", read_symbol_bands),
    ];
    let mut list = vec![];
    for (name, job) in jobs {
        list.extend(SIZES.map(|n| Benchmark { name: name.into(), n: Some(n), passes: 1, build: Box::new(move || job(n)) }));
    }
    for (k, text, count) in COUNTS {
        let build = |n| Box::new(move || count_up(n, k, count));
        list.extend(SIZES.map(|n| Benchmark { name: format!("count_up by {text}"), n: Some(n), passes: 1, build: build(n) }));
    }
    for (n, r, count) in LISTINGS {
        list.push(Benchmark { name: format!("within_reach, r = {r}"), n: Some(n), passes: 1, build: Box::new(move || within_reach(n, r, count)) });
    }
    for (q, z) in ARRANGEMENTS {
        list.push(Benchmark { name: format!("rearrange, q = {q}, z = {z}"), n: Some(q * z), passes: 1, build: Box::new(move || rearrange(q, z)) });
    }
    list.extend(uneven::beside_the_model());
    list.extend(SHEETS.map(|row| of_sheet("sheet", bench, row)));
    list.extend(SHEETS.into_iter().filter(|row| WRITTEN.contains(&row.0)).map(|row| of_sheet("write", write, row)));
    list
}

fn of_sheet(word: &str, job: fn(&[u8]) -> Box<dyn Pair>, (file, text, passes): (&'static str, &str, usize)) -> Benchmark {
    Benchmark { name: format!("{word}: {text}"), n: None, passes, build: Box::new(move || job(&sheet(file))) }
}

pub fn sheet(file: &str) -> Vec<u8> {
    std::fs::read(Path::new(env!("CARGO_MANIFEST_DIR")).join("../../crates/sheets/data").join(file)).expect(file)
}

pub fn inputs<I>(count: usize, mut make: impl FnMut(&mut Random) -> I) -> Vec<I> {
    let mut random = Random::seeded(0);
    (0..count).map(|_| make(&mut random)).collect()
}

/// The same record for each side.
fn records(random: &mut Random, n: usize) -> (turretmedlar::Permutation, model::Permutation) {
    let ours = record(&random.names(n));
    (ours, twin(ours))
}

/// Levels of n cells, so low that every count fits; 0 past n.
pub fn levels(random: &mut Random, n: usize) -> [u16; 20] {
    let mut row = [0; 20];
    row[..n].copy_from_slice(&random.group_below(n, 5000));
    row
}

fn digits(n: usize) -> Box<dyn Pair> {
    pair(
        inputs(INPUTS, |random| records(random, n)),
        |(record, _), row| *row = turretmedlar::digits(*record).unwrap(),
        |(_, record), row| *row = model::digits(record).unwrap(),
    )
}

fn rank(n: usize) -> Box<dyn Pair> {
    pair(
        inputs(INPUTS, |random| records(random, n)),
        |(record, _), rank| *rank = turretmedlar::rank(*record).unwrap(),
        |(_, record), rank| *rank = model::rank(record).unwrap(),
    )
}

fn unrank(n: usize) -> Box<dyn Pair> {
    pair(
        inputs(INPUTS, |random| random.below(factorial(n))),
        move |&rank, cells| *cells = turretmedlar::unrank(n, rank).unwrap().cells,
        move |&rank, cells| *cells = model::unrank(n, rank).unwrap().cells,
    )
}

/// On the new zero: on the old one it is the rank.
fn value(n: usize) -> Box<dyn Pair> {
    pair(
        inputs(INPUTS, |random| records(random, n)),
        |(record, _), value| *value = turretmedlar::value(*record, turretmedlar::Zero::New).unwrap(),
        |(_, record), value| *value = model::value(record, model::Zero::New).unwrap(),
    )
}

fn permutation_of_value(n: usize) -> Box<dyn Pair> {
    pair(
        inputs(INPUTS, |random| random.below(factorial(n))),
        move |&value, cells| *cells = turretmedlar::permutation_of_value(n, value, turretmedlar::Zero::New).unwrap().cells,
        move |&value, cells| *cells = model::permutation_of_value(n, value, model::Zero::New).unwrap().cells,
    )
}

fn read(n: usize) -> Box<dyn Pair> {
    pair(
        inputs(INPUTS, |random| levels(random, n)),
        move |levels, cells| *cells = turretmedlar::read(&levels[..n]).unwrap().cells,
        move |levels, cells| *cells = model::read(&levels[..n]).unwrap().cells,
    )
}

fn read_symbol(n: usize) -> Box<dyn Pair> {
    let m = factorial(n);
    pair(
        inputs(INPUTS, |random| levels(random, n)),
        move |levels, symbol| *symbol = turretmedlar::read_symbol(&levels[..n], m).unwrap(),
        move |levels, symbol| *symbol = model::read_symbol(&levels[..n], m).unwrap(),
    )
}

/// Bands of n cells, in two rows with 0 past n: from the levels that `read` has, up to nine levels more, below the next of them.
pub fn bands(random: &mut Random, n: usize) -> [[u16; 20]; 2] {
    let lowest = levels(random, n);
    let mut highest = lowest;
    for level in &mut highest[..n] {
        let next = lowest.iter().copied().filter(|other| other > level).min().unwrap_or(CEILING);
        *level = (*level + 9).min(next - 1);
    }
    [lowest, highest]
}

fn read_bands(n: usize) -> Box<dyn Pair> {
    pair(
        inputs(INPUTS, |random| bands(random, n)),
        move |[lowest, highest], cells| *cells = turretmedlar::read_bands(&lowest[..n], &highest[..n]).unwrap().cells,
        move |[lowest, highest], cells| *cells = model::read_bands(&lowest[..n], &highest[..n]).unwrap().cells,
    )
}

fn read_symbol_bands(n: usize) -> Box<dyn Pair> {
    let m = factorial(n);
    pair(
        inputs(INPUTS, |random| bands(random, n)),
        move |[lowest, highest], symbol| *symbol = turretmedlar::read_symbol_bands(&lowest[..n], &highest[..n], m).unwrap(),
        move |[lowest, highest], symbol| *symbol = model::read_symbol_bands(&lowest[..n], &highest[..n], m).unwrap(),
    )
}

/// What a job that pushes leaves in the lent lists, and its pushes and charge.
#[derive(Debug, Default, PartialEq)]
pub struct Left {
    levels: [u16; 20],
    list: [u8; 20],
    spent: model::Spent,
}

/// A job that pushes, on a fresh copy of the levels: the copy is in the time of both sides.
pub fn on_levels<X>(n: usize, job: impl Fn(&mut [u16], &X, &mut [u8]) -> model::Spent) -> impl Fn(&([u16; 20], X), &mut Left) {
    move |(levels, argument), left| {
        left.levels = *levels;
        left.spent = job(&mut left.levels[..n], argument, &mut left.list);
    }
}

fn count_up(n: usize, k: u32, count: usize) -> Box<dyn Pair> {
    pair(
        inputs(count, |random| (levels(random, n), k)),
        on_levels(n, |levels, &k, _| spent(turretmedlar::count_up(levels, k).unwrap())),
        on_levels(n, |levels, &k, _| model::count_up(levels, k).unwrap()),
    )
}

fn rewrite(n: usize) -> Box<dyn Pair> {
    pair(
        inputs(INPUTS, |random| (levels(random, n), records(random, n))),
        on_levels(n, |levels, (target, _), list| spent(turretmedlar::rewrite(levels, *target, list).unwrap())),
        on_levels(n, |levels, (_, target), list| model::rewrite(levels, target, list).unwrap()),
    )
}

fn store(n: usize) -> Box<dyn Pair> {
    stores(n, |random, _| random.below(factorial(n)))
}

/// Of settings that stand already.
fn store_standing(n: usize) -> Box<dyn Pair> {
    stores(n, |_, levels| turretmedlar::read_symbol(levels, factorial(n)).unwrap())
}

fn stores(n: usize, symbol: impl Fn(&mut Random, &[u16]) -> u64) -> Box<dyn Pair> {
    let m = factorial(n);
    let input = |random: &mut Random| {
        let levels = levels(random, n);
        (levels, symbol(random, &levels[..n]))
    };
    pair(
        inputs(INPUTS, input),
        on_levels(n, move |levels, &symbol, _| spent(turretmedlar::store(levels, m, symbol).unwrap())),
        on_levels(n, move |levels, &symbol, _| model::store(levels, m, symbol).unwrap()),
    )
}

/// A lent list, which the first call makes as long as it is to be, and what is given beside it: how many permutations it has, or the cost.
#[derive(Debug, Default, PartialEq)]
struct Listed {
    list: Vec<u8>,
    given: usize,
}

fn listed<I>(bytes: usize, job: impl Fn(&I, &mut [u8]) -> usize) -> impl Fn(&I, &mut Listed) {
    move |input, listed| {
        listed.list.resize(bytes, 0);
        listed.given = job(input, &mut listed.list);
    }
}

fn within_reach(n: usize, r: usize, count: usize) -> Box<dyn Pair> {
    let bytes = n * falling(n, r) as usize;
    pair(
        inputs(count, |random| levels(random, n)),
        listed(bytes, move |levels: &[u16; 20], list| turretmedlar::within_reach(&levels[..n], r, list).unwrap()),
        listed(bytes, move |levels: &[u16; 20], list| model::within_reach(&levels[..n], r, list).unwrap()),
    )
}

/// The old and the new arrangement.
pub fn two_arrangements(random: &mut Random, q: usize, z: usize) -> [Vec<u8>; 2] {
    [(); 2].map(|_| random.arrangement(q, z))
}

fn rearrange(q: usize, z: usize) -> Box<dyn Pair> {
    pair(
        inputs(INPUTS, |random| two_arrangements(random, q, z)),
        listed(q * z, move |[old, new]: &[Vec<u8>; 2], list| turretmedlar::rearrange(q, z, old, new, list).unwrap().into()),
        listed(q * z, move |[old, new]: &[Vec<u8>; 2], list| model::rearrange(q, z, old, new, list).unwrap().into()),
    )
}

/// A printed text, or a sheet that is written, at the start of a buffer that has room for any.
#[derive(Debug)]
struct Text {
    buffer: Vec<u8>,
    length: usize,
}

impl Default for Text {
    fn default() -> Text {
        Text { buffer: vec![0; turretmedlar::TEXT_BYTES], length: 0 }
    }
}

impl PartialEq for Text {
    fn eq(&self, other: &Text) -> bool {
        self.buffer[..self.length] == other.buffer[..other.length]
    }
}

fn bench(sheet: &[u8]) -> Box<dyn Pair> {
    pair(
        vec![sheet.to_vec()],
        |sheet, text: &mut Text| text.length = turretmedlar::bench(sheet, &mut text.buffer).unwrap(),
        |sheet, text: &mut Text| {
            text.buffer = model::bench(sheet);
            text.length = text.buffer.len();
        },
    )
}

fn write(bytes: &[u8]) -> Box<dyn Pair> {
    let sheet = model::read_sheet(bytes).expect("a sheet without fault");
    pair(
        vec![(held(&sheet), sheet)],
        |((groups, commands), _), text: &mut Text| text.length = turretmedlar::write_sheet(groups, commands, &mut text.buffer).unwrap(),
        |(_, sheet), text: &mut Text| text.length = model::write_sheet(sheet, &mut text.buffer).unwrap(),
    )
}
