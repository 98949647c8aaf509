//! Document 001's table of sub-problems (section V), filled as a whole, and how many prefixes of each length its least code has: by a plain program, and by one tuned by
//! hand.

/// The most symbols, and one more, since each number counts from 0.
const SIDE: usize = 65;
/// The most layers that have leaves, so that there are as many lengths: those of eight cells.
pub const LAYERS: usize = 7;
/// ∞: above all sums, and so low that sums can be added to it.
const INFINITE: u32 = 1 << 30;

/// How many prefixes there are of each length, from 1 on.
pub type Counts = [usize; LAYERS];

/// By the cells and the sums of the x least weights, x from 0 to the number of symbols.
pub type Fill = fn(usize, &[u32]) -> Counts;

pub fn factorial(n: usize) -> usize {
    (1..=n).product()
}

/// opt_i(x, m) in row x of layer i, by the recursions as they stand.
pub fn plain(n: usize, sums: &[u32]) -> Counts {
    let symbols = sums.len() - 1;
    let mut table = [[[0; SIDE]; SIDE]; LAYERS];
    for i in (1..n).rev() {
        let (upper, lower) = table.split_at_mut(i);
        let layer = &mut upper[i - 1];
        let (each, most) = (factorial(n - i), symbols.min(factorial(n) / factorial(n - i)));
        for (x, m) in (1..symbols + 1).flat_map(|x| (0..most + 1).map(move |m| (x, m))) {
            layer[x][m] = if x > m * each {
                INFINITE
            } else if i == n - 1 {
                i as u32 * sums[x]
            } else {
                least_of(sums, &lower[0], (n, i), (x, m))
            };
        }
    }
    leaves(n, sums, |i, x, m| table[i - 1][x][m])
}

/// The least over all numbers j of leaves in layer i. The range is half-open, since by `0..=` it takes a third longer.
fn least_of(sums: &[u32], next: &[[u32; SIDE]; SIDE], (n, i): (usize, usize), (x, m): (usize, usize)) -> u32 {
    let symbols = sums.len() - 1;
    let mut least = INFINITE;
    for j in 0..x.min(m) + 1 {
        let below = next[x - j][symbols.min((m - j) * (n - i))];
        least = least.min(below + i as u32 * (sums[x] - sums[x - j]));
    }
    least
}

/// opt_i(x, m) in row m of layer i, all x of a row at once: for each j the next layer's row, less i times the sum of as many weights, is moved by j. The least of these
/// plus i times the sum of x weights is opt_i(x, m).
pub fn tuned(n: usize, sums: &[u32]) -> Counts {
    let symbols = sums.len() - 1;
    let mut table = [[[INFINITE as i32; SIDE]; SIDE]; LAYERS];
    let mut padded = [0; SIDE];
    (0..).zip(sums).for_each(|(x, &sum): (usize, _)| padded[x] = sum as i32);
    for i in (1..n).rev() {
        let (upper, lower) = table.split_at_mut(i);
        let layer = &mut upper[i - 1];
        let most = symbols.min(factorial(n) / factorial(n - i));
        let times = padded.map(|sum| i as i32 * sum);
        if i == n - 1 {
            layer.iter_mut().enumerate().for_each(|(m, row)| row[..=m].copy_from_slice(&times[..=m]));
            continue;
        }
        let less = lower[0].map(|row| subtracted(row, &times));
        for m in 0..=most {
            for j in 0..=m {
                moved_least(&mut layer[m], &less[symbols.min((m - j) * (n - i))], j);
            }
            layer[m].iter_mut().zip(&times).for_each(|(least, times)| *least += times);
        }
    }
    leaves(n, sums, |i, x, m| table[i - 1][m][x] as u32)
}

fn subtracted(mut row: [i32; SIDE], times: &[i32; SIDE]) -> [i32; SIDE] {
    row.iter_mut().zip(times).for_each(|(least, times)| *least -= times);
    row
}

/// The lesser of each entry and that j before it in the other row.
fn moved_least(row: &mut [i32; SIDE], other: &[i32; SIDE], j: usize) {
    row[j..].iter_mut().zip(other).for_each(|(least, &other)| *least = (*least).min(other));
}

/// As many leaves in each layer as meet its minimum, by the filled table.
fn leaves(n: usize, sums: &[u32], opt: impl Fn(usize, usize, usize) -> u32) -> Counts {
    let symbols = sums.len() - 1;
    let (mut x, mut m) = (symbols, symbols.min(n));
    let mut counts = [0; LAYERS];
    for i in 1..n - 1 {
        let below = |j: usize| symbols.min((m - j) * (n - i));
        let meets = |&j: &usize| opt(i + 1, x - j, below(j)) + i as u32 * (sums[x] - sums[x - j]) == opt(i, x, m);
        let j = (0..=x.min(m)).rev().find(meets).expect("a minimum is met");
        counts[i - 1] = j;
        (x, m) = (x - j, below(j));
    }
    counts[n - 2] = x;
    counts
}
