//! A rank tuned by hand: the place of each cell, a mask of the places that remain, and a count of its bits for each digit. No permutation is copied, and no row of
//! digits is kept.

/// The rank, or None where it is no permutation.
#[inline(always)]
pub fn rank(n: usize, cells: &[u8; 20]) -> Option<u64> {
    if !(2..=20).contains(&n) {
        return None;
    }
    let mut places = [0; 32];
    let (mut met, mut all) = (0, 0);
    for (place, &cell) in (0..).zip(&cells[..n]) {
        places[usize::from(cell % 32)] = place;
        met |= 1 << (cell % 32);
        all |= cell;
    }
    let once = met == (2u32 << n) - 2 && all < 32;
    (once && cells[n..].iter().all(|&cell| cell == 0)).then(|| by_places(n, &places))
}

/// The same, where the processor counts bits by one instruction.
///
/// # Safety
/// The processor has that instruction.
#[target_feature(enable = "popcnt")]
pub unsafe fn rank_popcnt(n: usize, cells: &[u8; 20]) -> Option<u64> {
    rank(n, cells)
}

/// The circle is read down the places and up them by turns. How many of the remaining cells lie between the place of the cell before and this one's tells the digit.
#[inline(always)]
fn by_places(n: usize, places: &[u32; 32]) -> u64 {
    let mut remaining = (1u32 << n) - 1;
    let (mut from, mut down) = (0, true);
    let (mut rank, mut weight) = (0, 1);
    for m in (2..=n as u32).rev() {
        let place = places[m as usize % 32];
        remaining &= !(1 << (place % 32));
        let (low, high) = if from < place { (from, place) } else { (place, from) };
        let between = ((remaining & ((1 << (high % 32)) - 1)) >> (low % 32)).count_ones();
        let passed = if (from <= place) == down { between } else { m - 1 - between };
        let digit = if passed == 0 { m - 1 } else { passed - 1 };
        rank += u64::from(digit) * weight;
        weight *= u64::from(m);
        (from, down) = (place, !down);
    }
    rank
}
