//! Weights of symbols, by several kinds.
use crate::Random;

/// What it is, and how so many are made.
pub type Kind = (&'static str, fn(&mut Random, usize) -> Vec<u16>);

pub const EQUAL: Kind = ("equal", |random, m| vec![1 + random.below(65_535) as u16; m]);
pub const ANY: Kind = ("any", |random, m| (0..m).map(|_| random.number() as u16).collect());
pub const SHRINKING: Kind = ("from 65,535 down, each 5/6 of the one before", |random, m| shrinking(random, m, 6, 5));

pub const KINDS: [Kind; 8] = [
    EQUAL,
    ("0", |_, m| vec![0; m]),
    ("0 to 2", |random, m| (0..m).map(|_| random.below(3) as u16).collect()),
    ("0 or 65,535", |random, m| (0..m).map(|_| random.pick(&[0, u16::MAX])).collect()),
    ANY,
    ("52 of three, 1 of the others", |random, m| shuffled(random, (0..m).map(|place| if place < 3 { 52 } else { 1 }).collect())),
    SHRINKING,
    ("from 65,535 down, each half of the one before", |random, m| shrinking(random, m, 2, 1)),
];

fn shuffled(random: &mut Random, mut weights: Vec<u16>) -> Vec<u16> {
    for last in (1..weights.len()).rev() {
        weights.swap(last, random.index(last + 1));
    }
    weights
}

/// Each so many parts of the one before, in any sequence.
fn shrinking(random: &mut Random, m: usize, whole: u32, parts: u32) -> Vec<u16> {
    let falling = std::iter::successors(Some(u32::from(u16::MAX)), |weight| Some(weight * parts / whole));
    shuffled(random, falling.take(m).map(|weight| weight as u16).collect())
}
