//! Several cells to a place: document 02, request 11, held to the examples and claims of document 000 and to a search over raises.

use super::{choose, levels, lists, permutation, permutations};
use crate::Reason::{self, Fit, Muddle, Size};
use crate::{rearrange, rewrite, within_reach};

/// q and z.
type Shape = (usize, usize);

/// Of which all pairs of arrangements are tried.
const SMALL: [Shape; 8] = [(2, 1), (3, 1), (4, 1), (5, 1), (2, 2), (2, 3), (2, 4), (3, 2)];

/// The cost and the raised levels, in a lent list of so many bytes. Refused, all of these keep their values.
fn raised_in(room: usize, (q, z): Shape, old: &[u8], new: &[u8]) -> Result<(u8, Vec<u8>), Reason> {
    let mut list = vec![99; room];
    let cost = rearrange(q, z, old, new, &mut list);
    assert!(cost.is_ok() || list.iter().all(|&byte| byte == 99));
    cost.map(|cost| (cost, list))
}

fn raised(shape: Shape, old: &[u8], new: &[u8]) -> Result<(u8, Vec<u8>), Reason> {
    raised_in(old.len(), shape, old, new)
}

fn highest(levels: &[u8]) -> u8 {
    *levels.iter().max().unwrap()
}

/// "How far the highest level rises above q"
fn rise(q: usize, levels: &[u8]) -> u8 {
    highest(levels) - q as u8
}

/// "Cells only rise, by whole levels, and after it every cell of a lower new level must be strictly below every cell of a higher one."
fn is_raise(old: &[u8], new: &[u8], raised: &[u8]) -> bool {
    let cells = 0..old.len();
    let apart = |one: usize, other: usize| new[one] >= new[other] || raised[one] < raised[other];
    cells.clone().all(|cell| raised[cell] >= old[cell]) && cells.clone().all(|one| cells.clone().all(|other| apart(one, other)))
}

/// All arrangements, in lexicographic sequence.
fn arrangements((q, z): Shape) -> Vec<Vec<u8>> {
    let longer = |list: &Vec<u8>| {
        let left = (1..=q as u8).filter(|level| list.iter().filter(|&other| other == level).count() < z);
        left.map(|level| [&list[..], &[level]].concat()).collect::<Vec<_>>()
    };
    (0..q * z).fold(vec![vec![]], |lists, _| lists.iter().flat_map(longer).collect())
}

/// All pairs of these sizes, the old one first.
fn pairs(sizes: &[Shape]) -> impl Iterator<Item = (Shape, Vec<u8>, Vec<u8>)> + '_ {
    let of = |(shape, old): (Shape, Vec<u8>)| arrangements(shape).into_iter().map(move |new| (shape, old.clone(), new));
    sizes.iter().flat_map(|&shape| arrangements(shape).into_iter().map(move |old| (shape, old))).flat_map(of)
}

/// z cells at each level, from the lowest up.
fn rising((q, z): Shape) -> Vec<u8> {
    (0..q * z).map(|cell| (cell / z) as u8 + 1).collect()
}

/// Document 000: an order of the cells by level, and then z of them to a rank. None where cells of two ranks are at one level.
fn demodulate(z: usize, state: &[u8]) -> Option<Vec<u8>> {
    let mut cells: Vec<usize> = (0..state.len()).collect();
    cells.sort_by_key(|&cell| state[cell]);
    let mut ranks = vec![0; state.len()];
    for (j, &cell) in (1..).zip(&cells) {
        ranks[cell] = usize::div_ceil(j, z) as u8;
    }
    let legal = (z..state.len()).step_by(z).all(|j| state[cells[j - 1]] < state[cells[j]]);
    legal.then_some(ranks)
}

/// Document 000's Γ: "the highest level among the cells with rank i".
fn highest_of(rank: u8, ranks: &[u8], levels: &[u8]) -> u8 {
    (0..ranks.len()).filter(|&cell| ranks[cell] == rank).map(|cell| levels[cell]).max().unwrap()
}

/// Document 000: a cell of rank 1 keeps its level. One of rank i = 2, 3, ..., q gets "max{s_j, Γ_x(i - 1) + 1}"; "we set this gap to be the value 1", of which
/// `gap` is the number of parts.
fn modulate(state: &[u8], new: &[u8], gap: u8) -> Vec<u8> {
    let mut levels = state.to_vec();
    for rank in 2..=highest(new) {
        let least = highest_of(rank - 1, new, &levels) + gap;
        for cell in (0..new.len()).filter(|&cell| new[cell] == rank) {
            levels[cell] = levels[cell].max(least);
        }
    }
    levels
}

/// Document 000's examples 1 and 2, in tenths: the highest goes from 4 to 6, and on whole levels from 3 to 5. Cells 1 and 2 have one new level and do not end
/// equal there, as those of a raise need not; ours do.
#[test]
fn examples_1_and_2() {
    let (shape, old, new) = ((3, 2), [2, 3, 1, 2, 3, 1], [1, 1, 2, 2, 3, 3]);
    assert_eq!(demodulate(2, &[10, 15, 3, 5, 20, 3]), Some(old.to_vec()));
    let state = [27, 40, 15, 25, 38, 5];
    assert_eq!(demodulate(2, &state), Some(old.to_vec()));
    let written = modulate(&state, &new, 10);
    assert_eq!(written, [27, 40, 50, 50, 60, 60]);
    assert_eq!(demodulate(2, &written), Some(new.to_vec()));
    assert_eq!(raised(shape, &old, &new), Ok((2, vec![3, 3, 4, 4, 5, 5])));
    let unequal = modulate(&old, &new, 1);
    assert_eq!(unequal, [2, 3, 4, 4, 5, 5]);
    assert!(is_raise(&old, &new, &unequal));
    assert_eq!((highest(&written) - highest(&state), rise(3, &unequal)), (2 * 10, 2));
}

/// Example 10: the pairs of cells that stand for each of five messages.
const MESSAGES: [[[usize; 2]; 3]; 5] =
    [[[1, 2], [3, 4], [5, 6]], [[1, 3], [2, 6], [4, 5]], [[1, 4], [2, 5], [3, 6]], [[1, 5], [2, 3], [4, 6]], [[1, 6], [2, 4], [3, 5]]];

/// Construction 11: those of the pairs whose cells are of ranks 1 and 2 get rank 1, and the others, in sequence, the ranks 2 and 3 of the second message.
fn encode(state: &[u8], first: &[[usize; 2]; 3], second: &[u8]) -> Vec<u8> {
    let lowest = first.iter().find(|pair| pair.iter().all(|&cell| state[cell - 1] <= 2)).unwrap();
    let mut others = second.iter();
    (1..=6).map(|cell| if lowest.contains(&cell) { 1 } else { others.next().unwrap() + 1 }).collect()
}

/// Construction 11, of "cost constraint r = 1": no message on any state costs more. The example has the first message 3 and the second 2.
#[test]
fn construction_11() {
    let seconds = arrangements((2, 2));
    let (old, new) = ([1, 2, 1, 3, 2, 3], [2, 1, 3, 2, 1, 3]);
    assert_eq!(encode(&old, &MESSAGES[2], &seconds[1]), new);
    assert_eq!(raised((3, 2), &old, &new), Ok((1, vec![3, 2, 4, 3, 2, 4])));
    for state in arrangements((3, 2)) {
        let messages = MESSAGES.iter().flat_map(|first| seconds.iter().map(move |second| (first, second)));
        let stored: Vec<Vec<u8>> = messages.map(|(first, second)| encode(&state, first, second)).collect();
        assert!((0..30).all(|message| !stored[..message].contains(&stored[message])));
        assert!(stored.iter().all(|new| raised((3, 2), &state, new).unwrap().0 <= 1), "{state:?}");
    }
}

/// Section IV-A: "if at least one cell dropped by 2 ranks, the rewriting cost would be 2"; that it is not, "it is enough to ensure that the 2 cells of rank 3 in σ
/// do not drop into rank 1 in π".
#[test]
fn a_drop_of_two_ranks() {
    for (shape, old, new) in pairs(&[(3, 2)]) {
        let dropped = (0..6).any(|cell| (old[cell], new[cell]) == (3, 1));
        assert_eq!(raised(shape, &old, &new).unwrap().0 == 2, dropped, "{old:?} {new:?}");
    }
}

/// There and back need not cost the same.
#[test]
fn by_hand() {
    let table: [(Shape, [&[u8]; 3], u8); 8] = [
        ((2, 1), [&[1, 2], &[1, 2], &[1, 2]], 0),
        ((2, 1), [&[1, 2], &[2, 1], &[3, 2]], 1),
        ((3, 1), [&[3, 1, 2], &[1, 2, 3], &[3, 4, 5]], 2),
        ((3, 1), [&[1, 2, 3], &[3, 1, 2], &[4, 2, 3]], 1),
        ((2, 2), [&[1, 2, 1, 2], &[1, 2, 1, 2], &[1, 2, 1, 2]], 0),
        ((2, 2), [&[1, 2, 1, 2], &[1, 2, 2, 1], &[2, 3, 3, 2]], 1),
        ((4, 1), [&[4, 1, 2, 3], &[1, 2, 3, 4], &[4, 5, 6, 7]], 3),
        ((4, 1), [&[1, 2, 3, 4], &[4, 1, 2, 3], &[5, 2, 3, 4]], 1),
    ];
    for (shape, [old, new, list], cost) in table {
        assert_eq!(raised(shape, old, new), Ok((cost, list.to_vec())), "{old:?} {new:?}");
    }
}

/// "Those differences can be negative; their largest can't": together they are 0, so that it is 0 only where they all are.
#[test]
fn only_no_change_costs_nothing() {
    for (shape, old, new) in pairs(&SMALL) {
        assert_eq!(raised(shape, &old, &new).unwrap().0 == 0, old == new, "{old:?} {new:?}");
    }
}

/// All raises to this level at most, cell after cell: the first cells of a raise are a raise of these.
fn raises(old: &[u8], new: &[u8], most: u8) -> Vec<Vec<u8>> {
    let longer = |lists: Vec<Vec<u8>>, cell: usize| {
        let with = |list: Vec<u8>| (old[cell]..=most).map(move |level| [&list[..], &[level]].concat());
        lists.into_iter().flat_map(with).filter(|list| is_raise(&old[..=cell], &new[..=cell], list)).collect()
    };
    (0..old.len()).fold(vec![vec![]], longer)
}

/// The search misses no list of levels that is a raise.
#[test]
fn raises_are_all_there_are() {
    for ((q, _), old, new) in pairs(&[(2, 1), (3, 1), (4, 1), (2, 2), (2, 3)]) {
        let most = 2 * q as u8 - 1;
        let expected: Vec<Vec<u8>> = lists(&(0..=most).collect::<Vec<_>>(), old.len()).into_iter().filter(|list| is_raise(&old, &new, list)).collect();
        assert_eq!(raises(&old, &new, most), expected);
    }
}

/// "The least possible": ours is a raise, and no raise has a lower highest level. By document 000 the modulation "minimizes the increase in the levels of all the
/// cells", so that no raise has any cell lower than there; as Γ_s(q) - Γ_s(1) = q - 1, it costs the same (proposition 3).
#[test]
fn held_to_every_raise() {
    for (shape, old, new) in pairs(&SMALL) {
        let (cost, ours) = raised(shape, &old, &new).unwrap();
        let all = raises(&old, &new, shape.0 as u8 + cost);
        assert!(all.contains(&ours) && all.iter().all(|raise| rise(shape.0, raise) == cost), "{old:?} {new:?}");
        let least = modulate(&old, &new, 1);
        assert!(all.contains(&least) && all.iter().all(|raise| raise.iter().zip(&least).all(|(level, least)| level >= least)), "{old:?} {new:?}");
    }
}

/// Proposition 3, where "the state s is a result of a previous modulation process": another one costs our cost at most, and as much if Γ_s(q) - Γ_s(1) = q - 1.
#[test]
fn proposition_3() {
    let mut less = 0;
    for (shape, first, old) in pairs(&[(2, 1), (3, 1), (4, 1), (2, 2), (2, 3)]) {
        let state = modulate(&first, &old, 1);
        assert_eq!(demodulate(shape.1, &state), Some(old.clone()));
        let gapless = highest(&state) - highest_of(1, &old, &state) == shape.0 as u8 - 1;
        for new in arrangements(shape) {
            let (cost, spent) = (raised(shape, &old, &new).unwrap().0, highest(&modulate(&state, &new, 1)) - highest(&state));
            assert!(spent == cost || !gapless && spent < cost, "{state:?} {new:?}");
            less += usize::from(spent < cost);
        }
    }
    assert!(less > 0);
}

/// Lemma 5: so many arrangements are within cost r of any one.
fn ball((q, z): Shape, r: usize) -> usize {
    choose((r + 1) * z, z).pow((q - r) as u32) * (1..=r).map(|i| choose(i * z, z)).product::<usize>()
}

/// From every arrangement of small sizes, and from some of two larger ones. All are within cost q - 1.
#[test]
fn lemma_5() {
    let step = |shape| if SMALL.contains(&shape) { 1 } else { 311 };
    for shape in SMALL.into_iter().chain([(4, 2), (3, 3)]) {
        let all = arrangements(shape);
        for old in all.iter().step_by(step(shape)) {
            let costs: Vec<u8> = all.iter().map(|new| raised(shape, old, new).unwrap().0).collect();
            let within = |r: usize| costs.iter().filter(|&&cost| usize::from(cost) <= r).count();
            assert!((0..shape.0).all(|r| within(r) == ball(shape, r)), "{old:?}");
            assert_eq!(within(shape.0 - 1), all.len());
        }
    }
}

/// With one cell to a place: the order's names from the highest to the lowest have the levels n to 1.
fn arranged(names: &[u8]) -> Vec<u8> {
    levels(names, names.len() as u16, 1).into_iter().map(|level| level as u8).collect()
}

/// The cost from one order to another, by raised levels and by pushes to the top, which leave a raise too.
fn costs(old: &[u8], new: &[u8]) -> (u8, u8) {
    let n = old.len();
    let mut pushed = levels(old, n as u16, 1);
    let pushes = rewrite(&mut pushed, &permutation(new), &mut [0; 20]).unwrap().pushes as u8;
    let pushed: Vec<u8> = pushed.into_iter().map(|level| level as u8).collect();
    assert!(is_raise(&arranged(old), &arranged(new), &pushed), "{old:?} {new:?}");
    assert_eq!(rise(n, &pushed), pushes);
    let (cost, list) = raised((n, 1), &arranged(old), &arranged(new)).unwrap();
    assert!(is_raise(&arranged(old), &arranged(new), &list) && cost <= pushes, "{old:?} {new:?}");
    (cost, pushes)
}

/// One cell to a place is an order. The cost is the largest fall, new place less old place, and never more than the pushes.
#[test]
fn one_cell_to_a_place() {
    let place = |names: &[u8], cell: u8| names.iter().position(|&other| other == cell).unwrap() as i8;
    for n in 2..=5 {
        let all = permutations(n);
        for (old, new) in all.iter().flat_map(|old| all.iter().map(move |new| (old, new))) {
            let fall = (1..=n as u8).map(|cell| place(new, cell) - place(old, cell)).max();
            assert_eq!(Some(costs(old, new).0 as i8), fall, "{old:?} {new:?}");
        }
    }
}

/// Where the highest cell goes to the bottom, both cost n - 1. Where the two lowest change places, raising one above the other costs 1, and "push-to-the-top"
/// still n - 1.
#[test]
fn pushes_to_the_top_cost_as_much_or_more() {
    for n in 2..=16 {
        let old: Vec<u8> = (1..=n).collect();
        let (mut turned, mut swapped) = (old.clone(), old.clone());
        turned.rotate_left(1);
        swapped.swap(usize::from(n) - 1, usize::from(n) - 2);
        assert_eq!([costs(&old, &turned), costs(&old, &swapped)], [(n - 1, n - 1), (1, n - 1)]);
    }
}

/// What r pushes lead to is within cost r: n!/(n-r)! orders of the (r + 1)^(n-r) r! of lemma 5, and these are more but where r is 0 or n - 1.
#[test]
fn orders_within_reach_are_within_cost() {
    for old in (2..=5).flat_map(permutations) {
        let n = old.len();
        for r in 0..n {
            let mut list = vec![0; 600];
            let count = within_reach(&levels(&old, 9, 1), r, &mut list).unwrap();
            assert!(list.chunks(n).take(count).all(|new| usize::from(costs(&old, new).0) <= r), "{old:?} {r}");
            assert_eq!(ball((n, 1), r), (r + 1).pow((n - r) as u32) * (1..=r).product::<usize>());
            assert_eq!(count == ball((n, 1), r), r == 0 || r + 1 == n, "{n} {r}");
        }
    }
}

/// "q is 2 to 16, z 1 to 16, and q × z at most 64": 126 sizes. Turned upside down, each costs q - 1, so that no level exceeds 31.
#[test]
fn every_size() {
    let mut taken = vec![];
    for (q, z) in (0..=70).flat_map(|q| (0..=70).map(move |z| (q, z))) {
        let new = rising((q, z));
        let old: Vec<u8> = new.iter().rev().copied().collect();
        match raised((q, z), &old, &new) {
            Ok((cost, list)) => {
                assert_eq!((usize::from(cost), usize::from(highest(&list))), (q - 1, 2 * q - 1));
                assert!(is_raise(&old, &new, &list));
                taken.push((q, z));
            }
            refused => assert_eq!(refused, Err(Size), "{q} {z}"),
        }
    }
    assert_eq!(taken.len(), 126);
    assert!(taken.iter().all(|&(q, z)| (2..=16).contains(&q) && (1..=16).contains(&z) && q * z <= 64));
    assert!([(2, 1), (2, 16), (4, 16), (8, 8), (16, 1), (16, 4)].iter().all(|shape| taken.contains(shape)));
}

/// Some have low bits, or a product modulo 2^64, that would be taken; lists of so many cells are lent.
#[test]
fn sizes_past_all_ranges() {
    let high = 1 << 63;
    let numbers = [1, 2, 3, 17, 257, 258, 1 << 32, 1 << 32 | 1, 1 << 32 | 2, high, high | 1, high | 3, usize::MAX / 3 * 2 + 1, usize::MAX - 1, usize::MAX];
    for (q, z) in numbers.into_iter().flat_map(|q| numbers.map(|z| (q, z))).filter(|&(q, z)| q.max(z) > 16) {
        let product = Some(q.wrapping_mul(z)).filter(|&product| product <= 64);
        for cells in [2, 3, 6].into_iter().chain(product) {
            let levels: Vec<u8> = (1..=cells as u8).collect();
            assert_eq!(raised((q, z), &levels, &levels), Err(Size), "{q} {z} {cells}");
        }
    }
}

/// Only arrangements are taken, of all lists of levels from 0 to q + 1, and of those with any byte in the place of one level.
#[test]
fn wrong_arrangements() {
    for shape in [(2, 1), (3, 1), (2, 2), (3, 2)] {
        let (good, all) = (rising(shape), arrangements(shape));
        let changed = |cell: usize| {
            let good = good.clone();
            (0..=255).map(move |level| [&good[..cell], &[level], &good[cell + 1..]].concat())
        };
        let past = (0..=shape.0 as u8 + 1).collect::<Vec<_>>();
        for levels in lists(&past, good.len()).into_iter().chain((0..good.len()).flat_map(changed)) {
            let expected = if all.contains(&levels) { None } else { Some(Muddle) };
            assert_eq!((raised(shape, &levels, &good).err(), raised(shape, &good, &levels).err()), (expected, expected), "{levels:?}");
        }
    }
}

/// "Lists without q × z entries are fit": each of the three, by itself and with others, shorter or longer.
#[test]
fn lists_of_every_length() {
    for shape in [(2, 1), (2, 2), (4, 1)] {
        let (cells, long) = (shape.0 * shape.1, rising(shape).repeat(2));
        for (old, new, room) in (0..=2 * cells).flat_map(|old| (0..=2 * cells).flat_map(move |new| (0..=2 * cells).map(move |room| (old, new, room)))) {
            let expected = if [old, new, room] == [cells; 3] { None } else { Some(Fit) };
            assert_eq!(raised_in(room, shape, &long[..old], &long[..new]).err(), expected, "{old} {new} {room}");
        }
    }
}

/// All that is handed in, and how many bytes are lent.
struct Lent {
    shape: Shape,
    old: Vec<u8>,
    new: Vec<u8>,
    room: usize,
}

/// The reason of a fault, and how to make it.
type Fault = (Reason, fn(&mut Lent));

/// Faults of three levels with two cells each, in the sequence in which they are judged.
const FAULTS: [Fault; 16] = [
    (Size, |lent| lent.shape.0 = 1),
    (Size, |lent| lent.shape.0 = 17),
    (Size, |lent| lent.shape.1 = 0),
    (Size, |lent| lent.shape.1 = 17),
    (Size, |lent| lent.shape = (13, 5)),
    (Fit, |lent| lent.old.truncate(5)),
    (Fit, |lent| lent.old.resize(7, 3)),
    (Fit, |lent| lent.new.truncate(5)),
    (Fit, |lent| lent.new.resize(7, 3)),
    (Fit, |lent| lent.room = 5),
    (Fit, |lent| lent.room = 7),
    (Muddle, |lent| lent.old[0] = 0),
    (Muddle, |lent| lent.old[0] = 4),
    (Muddle, |lent| lent.old[0] = 1),
    (Muddle, |lent| lent.new[0] = 255),
    (Muddle, |lent| lent.new[0] = 3),
];

/// Every choice of these faults, made from the last to the first.
#[test]
fn refusals_in_sequence() {
    for choice in 0..1_u32 << FAULTS.len() {
        let mut lent = Lent { shape: (3, 2), old: vec![2, 3, 1, 2, 3, 1], new: vec![1, 1, 2, 2, 3, 3], room: 6 };
        let mut first = None;
        for (_, (reason, fault)) in FAULTS.iter().enumerate().filter(|(place, _)| choice >> place & 1 == 1).rev() {
            fault(&mut lent);
            first = Some(*reason);
        }
        assert_eq!(raised_in(lent.room, lent.shape, &lent.old, &lent.new).err(), first, "{choice:b}");
    }
    assert_eq!(raised_in(0, (0, 0), &[], &[]), Err(Size));
    assert_eq!(raised_in(0, (2, 1), &[], &[]), Err(Fit));
}
