//! Time of a call, by alternating rounds in this process. They are spread over several sweeps of the whole list, so that a busy stretch of the machine meets only
//! some of them.
use crate::benchmarks::Benchmark;
use crate::pair::{Pair, Side, SIDES};
use std::time::Instant;

// Both odd, so that there is a middle round.
const SWEEPS: usize = 9;
const ROUNDS: usize = 7;

/// In ns for each call.
pub struct Times {
    pub best: f64,
    pub median: f64,
}

pub struct Timed {
    pub pair: Box<dyn Pair>,
    /// Ours and the other's.
    pub times: [Times; 2],
}

fn round(pair: &mut dyn Pair, side: Side, passes: usize) -> f64 {
    let start = Instant::now();
    pair.run(side, passes);
    start.elapsed().as_secs_f64() * 1e9 / (passes * pair.calls()) as f64
}

/// Some rounds of each side. The answers are compared after every round, outside its time; a first round is not counted.
fn rounds(pair: &mut dyn Pair, passes: usize, found: &mut [Vec<f64>; 2]) {
    for number in 0..=ROUNDS {
        for side in SIDES {
            let time = round(pair, side, passes);
            if number > 0 {
                found[side as usize].push(time);
            }
        }
        pair.compare();
    }
}

pub fn times(mut rounds: Vec<f64>) -> Times {
    rounds.sort_by(f64::total_cmp);
    Times { best: rounds[0], median: rounds[rounds.len() / 2] }
}

pub fn time(benchmarks: &[Benchmark]) -> Vec<Timed> {
    let mut list: Vec<_> = benchmarks.iter().map(|benchmark| ((benchmark.build)(), [vec![], vec![]])).collect();
    for _ in 0..SWEEPS {
        for (benchmark, (pair, found)) in benchmarks.iter().zip(&mut list) {
            rounds(pair.as_mut(), benchmark.passes, found);
        }
    }
    list.into_iter().map(|(pair, found)| Timed { pair, times: found.map(times) }).collect()
}
