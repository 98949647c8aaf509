//! The plain program that document 02's request 10 asks for: one "that copies the remaining order at each digit", into a row of twenty; and again into a list on the
//! heap.

/// The rank, or None where it is no permutation.
pub fn rank(n: usize, cells: &[u8; 20]) -> Option<u64> {
    is_permutation(n, cells).then(|| rank_of(cells, n))
}

/// The same, by lists.
pub fn rank_by_lists(n: usize, cells: &[u8; 20]) -> Option<u64> {
    is_permutation(n, cells).then(|| rank_of_list(&cells[..n]))
}

/// "The first n places hold each of 1 to n once; all places past n hold 0."
fn is_permutation(n: usize, cells: &[u8; 20]) -> bool {
    if !(2..=20).contains(&n) {
        return false;
    }
    let mut met = [false; 21];
    for &cell in &cells[..n] {
        let cell = usize::from(cell);
        if cell == 0 || cell > n || met[cell] {
            return false;
        }
        met[cell] = true;
    }
    cells[n..].iter().all(|&cell| cell == 0)
}

/// "The remaining order takes places i-1 down to 1, then places n down to i+1. Rank = digit + n × rank of the remaining order; one cell has rank 0."
fn rank_of(order: &[u8; 20], n: usize) -> u64 {
    if n == 1 {
        return 0;
    }
    let mut above = 0;
    while usize::from(order[above]) != n {
        above += 1;
    }
    let mut remaining = [0; 20];
    for place in 0..above {
        remaining[place] = order[above - 1 - place];
    }
    for place in above..n - 1 {
        remaining[place] = order[n - 1 + above - place];
    }
    digit(n, above) + n as u64 * rank_of(&remaining, n - 1)
}

fn rank_of_list(order: &[u8]) -> u64 {
    let n = order.len();
    if n == 1 {
        return 0;
    }
    let above = order.iter().take_while(|&&cell| usize::from(cell) != n).count();
    let remaining: Vec<u8> = order[..above].iter().rev().chain(order[above + 1..].iter().rev()).copied().collect();
    digit(n, above) + n as u64 * rank_of_list(&remaining)
}

/// "The digit is (i - 2) modulo n": of the cell with so many above it, which is at the next place.
fn digit(n: usize, above: usize) -> u64 {
    ((above + n - 1) % n) as u64
}
