//! Settings used unevenly: document 02, request 12. The code that is chosen, held to all choices there are, to the examples of document 001 and to the even code.

use super::{lists, prefixes, Numbers};
use crate::permutations::factorial;
use crate::symbols::{prefix_length, prefix_of_symbol};
use crate::uneven::{code, SubProblems};
use std::cmp::Reverse;
use std::collections::BTreeSet;
use std::slice::from_ref;

/// A prefix for each symbol.
type Choice = Vec<Vec<u8>>;

/// "Prefixes of lengths 1 to n - 1", the short ones first, those of a length in lexicographic sequence.
fn all_prefixes(n: usize) -> Vec<Vec<u8>> {
    (1..n).flat_map(|length| prefixes(n, length)).collect()
}

/// "None the start of another"
fn apart(one: &[u8], other: &[u8]) -> bool {
    !one.starts_with(other) && !other.starts_with(one)
}

/// All choices for m symbols.
fn choices(n: usize, m: usize) -> Vec<Choice> {
    let all = all_prefixes(n);
    let longer = |choice: &Choice| {
        let free = all.iter().filter(|prefix| choice.iter().all(|other| apart(prefix, other)));
        free.map(|prefix| [&choice[..], from_ref(prefix)].concat()).collect::<Vec<_>>()
    };
    (0..m).fold(vec![vec![]], |choices, _| choices.iter().flat_map(longer).collect())
}

fn lengths(choice: &Choice) -> Vec<usize> {
    choice.iter().map(Vec::len).collect()
}

fn sorted(mut lengths: Vec<usize>) -> Vec<usize> {
    lengths.sort_unstable();
    lengths
}

/// "The sum of weight times length"
fn cost(weights: &[u16], lengths: &[usize]) -> u64 {
    weights.iter().zip(lengths).map(|(&weight, &length)| u64::from(weight) * length as u64).sum()
}

/// What is least, and among equals first: the cost, and "the lengths sorted from short to long".
fn key(weights: &[u16], lengths: &[usize]) -> (u64, Vec<usize>) {
    (cost(weights, lengths), sorted(lengths.to_vec()))
}

/// "Heavier symbols [..], the lower symbol first where weights tie."
fn comes_before(weights: &[u16], one: usize, other: usize) -> bool {
    weights[one] > weights[other] || weights[one] == weights[other] && one < other
}

/// "Heavier symbols get the shorter ones".
fn shorter_first(weights: &[u16], lengths: &[usize]) -> bool {
    let symbols = 0..weights.len();
    symbols.clone().all(|one| symbols.clone().all(|other| !comes_before(weights, one, other) || lengths[one] <= lengths[other]))
}

/// "Taken in that sequence, each symbol gets the first prefix of its length, lexicographically, that no earlier one starts."
fn first_of_each_length(n: usize, weights: &[u16], choice: &Choice) -> bool {
    (0..weights.len()).all(|symbol| {
        let earlier: Vec<usize> = (0..weights.len()).filter(|&other| comes_before(weights, other, symbol)).collect();
        let all = prefixes(n, choice[symbol].len());
        let first = all.iter().find(|prefix| earlier.iter().all(|&other| !prefix.starts_with(&choice[other])));
        first == Some(&choice[symbol])
    })
}

/// All lists of m weights up to this one.
fn weights_to(most: u16, m: usize) -> Vec<Vec<u16>> {
    lists(&(0..=most).collect::<Vec<_>>(), m)
}

/// "Least among all such choices": of all choices there are, just one obeys every sentence.
#[test]
fn one_choice_obeys_every_sentence() {
    for (n, m, most) in [(2, 2, 9), (3, 2, 5), (3, 3, 4), (3, 4, 4), (3, 5, 3), (3, 6, 2), (4, 2, 4), (4, 3, 2)] {
        let all: Vec<(Choice, Vec<usize>)> = choices(n, m).into_iter().map(|choice| (choice.clone(), lengths(&choice))).collect();
        for weights in weights_to(most, m) {
            let best = all.iter().map(|(_, lengths)| key(&weights, lengths)).min().unwrap();
            let left = all.iter().filter(|(_, lengths)| key(&weights, lengths) == best && shorter_first(&weights, lengths));
            let left: Vec<&Choice> = left.map(|(choice, _)| choice).filter(|choice| first_of_each_length(n, &weights, choice)).collect();
            assert_eq!(left, [&code(n, &weights)], "{n} cells, {weights:?}");
        }
    }
}

/// The lengths, from short to long, of all sets of m prefixes, none the start of another.
fn lengths_of_sets(n: usize, m: usize) -> BTreeSet<Vec<usize>> {
    fn go_on(left: &[Vec<u8>], m: usize, set: &mut Choice, found: &mut BTreeSet<Vec<usize>>) {
        if set.len() == m {
            found.insert(lengths(set));
            return;
        }
        for (index, prefix) in left.iter().enumerate() {
            if set.iter().all(|other| apart(prefix, other)) {
                set.push(prefix.clone());
                go_on(&left[index + 1..], m, set, found);
                set.pop();
            }
        }
    }
    let mut found = BTreeSet::new();
    go_on(&all_prefixes(n), m, &mut vec![], &mut found);
    found
}

/// All different sequences of these lengths.
fn sequences(lengths: &[usize]) -> BTreeSet<Vec<usize>> {
    if lengths.is_empty() {
        return BTreeSet::from([vec![]]);
    }
    let first = |index: usize| {
        let others = [&lengths[..index], &lengths[index + 1..]].concat();
        sequences(&others).into_iter().map(move |rest| [&[lengths[index]], &rest[..]].concat())
    };
    (0..lengths.len()).flat_map(first).collect()
}

/// The same where a choice of codes begins: four cells have room for four prefixes of length 1. All sets of prefixes, with all ways to give them to the symbols.
#[test]
fn no_set_of_prefixes_costs_less() {
    for (m, most) in [(4, 3), (5, 3), (6, 2)] {
        let all: Vec<Vec<usize>> = lengths_of_sets(4, m).iter().flat_map(|lengths| sequences(lengths)).collect();
        for weights in weights_to(most, m) {
            let best = all.iter().map(|lengths| key(&weights, lengths)).min().unwrap();
            let chosen = code(4, &weights);
            assert_eq!(key(&weights, &lengths(&chosen)), best, "{weights:?}");
            assert!(shorter_first(&weights, &lengths(&chosen)) && first_of_each_length(4, &weights, &chosen), "{weights:?}");
        }
    }
}

/// How many prefixes there are of each length, from 1 on.
type Counts = [u8; 7];

/// Of the prefixes of a length, so many.
fn single(length: usize, count: usize) -> Counts {
    let mut counts = [0; 7];
    counts[length - 1] = count as u8;
    counts
}

fn total(counts: &Counts) -> usize {
    counts.iter().map(|&count| usize::from(count)).sum()
}

fn plus(one: &Counts, other: &Counts) -> Counts {
    std::array::from_fn(|index| one[index] + other[index])
}

/// Those of all sets of at most m prefixes that go on from one vertex of document 001's tree, in the layer of this depth: none, the vertex itself, or what goes on from
/// its children.
fn counts_below(n: usize, depth: usize, m: usize) -> BTreeSet<Counts> {
    let mut sums = BTreeSet::from([[0; 7]]);
    if depth < n - 1 {
        let child = counts_below(n, depth + 1, m);
        for _ in 0..n - depth {
            let pairs = sums.iter().flat_map(|one| child.iter().map(move |other| plus(one, other)));
            sums = pairs.filter(|sum| total(sum) <= m).collect();
        }
    }
    if depth > 0 {
        sums.insert(single(depth, 1));
    }
    sums
}

/// Those of m prefixes for which there is room: a prefix of a length leads (n - length)! of the n! orders, and no two lead the same one.
fn counts_with_room(n: usize, m: usize) -> Vec<Counts> {
    let mut found = vec![([0; 7], m, factorial(n))];
    for length in 1..n {
        let each = factorial(n - length);
        let longer = |&(counts, left, room): &(Counts, usize, u64)| {
            let few = (0..=left).take_while(move |&count| count as u64 * each <= room);
            few.map(move |count| (plus(&counts, &single(length, count)), left - count, room - count as u64 * each))
        };
        found = found.iter().flat_map(longer).collect();
    }
    found.into_iter().filter(|&(_, left, _)| left == 0).map(|(counts, ..)| counts).collect()
}

/// The lengths from short to long.
fn spread(counts: &Counts) -> Vec<usize> {
    (1..).zip(counts).flat_map(|(length, &count)| vec![length; count.into()]).collect()
}

/// There is a set of prefixes just where there is room: by all sets, by the tree, and by the orders that they lead.
#[test]
fn lengths_that_have_room() {
    for (n, most) in [(2, 2), (3, 6), (4, 24), (5, 20)] {
        let by_tree = counts_below(n, 0, most);
        for m in 0..=most {
            let expected: BTreeSet<Counts> = by_tree.iter().filter(|counts| total(counts) == m).copied().collect();
            assert_eq!(counts_with_room(n, m).into_iter().collect::<BTreeSet<_>>(), expected, "{m} of {n} cells");
            if n < 4 || n == 4 && m <= 6 {
                assert_eq!(lengths_of_sets(n, m), expected.iter().map(spread).collect());
            }
        }
    }
}

impl Numbers {
    /// Any m weights; few different ones; zeros and the heaviest; each a part of the one before, shuffled.
    pub(super) fn weights(&mut self, m: usize) -> [Vec<u16>; 4] {
        let mut shrinking: Vec<u16> = (0..m as i32).map(|place| (65_535.0 * 0.7_f64.powi(place)) as u16).collect();
        (1..m).for_each(|last| shrinking.swap(last, self.below(last as u64 + 1) as usize));
        let mut of = |values: u64, times: u64| (0..m).map(|_| (self.below(values) * times) as u16).collect();
        [of(65_536, 1), of(3, 1), of(2, 65_535), shrinking]
    }
}

/// The least by trying all counts, with the heaviest first.
fn best_of(all: &[Counts], weights: &[u16]) -> Vec<usize> {
    let mut falling = weights.to_vec();
    falling.sort_unstable_by_key(|&weight| Reverse(weight));
    all.iter().map(|counts| key(&falling, &spread(counts))).min().unwrap().1
}

/// More symbols and more cells, by all counts for which there is room.
#[test]
fn no_lengths_with_room_cost_less() {
    let mut numbers = Numbers(12);
    let small = (2..=24).map(|m| (4, m));
    for (n, m) in small.chain([(5, 6), (5, 19), (5, 40), (5, 64), (6, 7), (6, 25), (6, 32), (7, 8), (7, 22), (8, 9), (8, 15)]) {
        let all = counts_with_room(n, m);
        for weights in numbers.weights(m) {
            assert_eq!(SubProblems::solve(n, &weights).lengths(), best_of(&all, &weights), "{n} cells, {weights:?}");
        }
    }
}

/// Every n and m, up to 64 symbols.
fn codes() -> impl Iterator<Item = (usize, usize)> {
    (2..=8).flat_map(|n| (2..=factorial(n).min(64) as usize).map(move |m| (n, m)))
}

/// In all sizes the sentences that speak of one code hold, and it costs no more than the even one, which is a choice too.
#[test]
fn codes_of_every_size() {
    let mut numbers = Numbers(13);
    assert_eq!(codes().count(), 1 + 5 + 23 + 4 * 63);
    for (n, m) in codes() {
        for weights in numbers.weights(m) {
            let chosen = code(n, &weights);
            let lengths = lengths(&chosen);
            let cells = |prefix: &Vec<u8>| (1..n).contains(&prefix.len()) && prefix.iter().all(|cell| (1..=n as u8).contains(cell));
            assert!(chosen.iter().all(|prefix| cells(prefix) && prefix.iter().collect::<BTreeSet<_>>().len() == prefix.len()), "{chosen:?}");
            assert!((0..m).all(|one| (0..one).all(|other| apart(&chosen[one], &chosen[other]))), "{chosen:?}");
            assert!(shorter_first(&weights, &lengths), "{weights:?} {chosen:?}");
            assert!(cost(&weights, &lengths) <= cost(&weights, &vec![prefix_length(n, m as u64); m]), "{weights:?} {chosen:?}");
            assert!(n > 6 || first_of_each_length(n, &weights, &chosen), "{weights:?} {chosen:?}");
        }
    }
}

/// Example 21 and Fig. 4(b): two prefixes of length 1, five of 2 and two of 3. The first symbol is the heaviest.
pub(super) const FIGURE: [&[u8]; 9] = [&[1], &[2], &[3, 1], &[3, 2], &[3, 4], &[4, 1], &[4, 2], &[4, 3, 1], &[4, 3, 2]];

/// Example 22: with these p_k is k.
pub(super) const WEIGHTS: [u16; 9] = [9, 8, 7, 6, 5, 4, 3, 2, 1];

#[test]
fn example_21() {
    assert_eq!(code(4, &WEIGHTS), FIGURE);
    // Two that are far heavier than the others; and where a code with one prefix of length 1 costs as much.
    for weights in [[65_535, 65_535, 1, 1, 1, 1, 1, 0, 0], [3, 2, 1, 1, 1, 1, 1, 1, 1]] {
        assert_eq!(code(4, &weights), FIGURE);
    }
}

/// "opt_2(4,3) = 3p_1 + 3p_2 + 2p_3 + 2p_4", of all p that rise; and where opt_1(9,4) and opt_2(7,6) are met.
#[test]
fn example_22() {
    for steps in weights_to(2, 4) {
        let mut p = vec![0];
        steps.iter().chain(&[1; 5]).for_each(|step| p.push(p[p.len() - 1] + step));
        let table = SubProblems::solve(4, &p[1..]);
        let of = |range: std::ops::RangeInclusive<usize>| range.map(|k| u64::from(p[k])).sum::<u64>();
        let layer_3 = [table.opt(3, 4, 6), table.opt(3, 3, 4), table.opt(3, 2, 2), table.opt(3, 1, 0)];
        assert_eq!(layer_3, [Some(3 * of(1..=4)), Some(3 * of(1..=3)), Some(3 * of(1..=2)), None]);
        assert_eq!(table.opt(2, 4, 3), Some(3 * of(1..=2) + 2 * of(3..=4)), "{p:?}");
    }
    let table = SubProblems::solve(4, &WEIGHTS);
    assert_eq!(table.opt(2, 4, 3), Some(3 + 6 + 6 + 8));
    assert_eq!(table.opt(1, 9, 4), table.opt(2, 7, 6).map(|below| below + 8 + 9));
    assert_eq!(table.opt(2, 7, 6), table.opt(3, 2, 2).map(|below| below + 2 * (3 + 4 + 5 + 6 + 7)));
    assert_eq!(table.lengths(), [1, 1, 2, 2, 2, 2, 2, 3, 3]);
}

/// The number of cells, the weights and the prefixes.
type Row = (usize, &'static [u16], &'static [&'static [u8]]);

/// Of three cells, two prefixes of length 1 leave room for two more of length 2, and one for four. Where weights do not tell, the lengths do.
#[test]
fn by_hand() {
    let table: [Row; 8] = [
        (2, &[0, 9], &[&[2], &[1]]),
        (3, &[5, 5, 5], &[&[1], &[2], &[3]]),
        (3, &[1, 2, 3, 4], &[&[3, 2], &[3, 1], &[2], &[1]]),
        (3, &[1, 1, 1, 1, 4], &[&[2, 1], &[2, 3], &[3, 1], &[3, 2], &[1]]),
        (3, &[0, 0, 0, 0], &[&[1], &[2], &[3, 1], &[3, 2]]),
        (4, &[0, 0, 0, 0, 0], &[&[1], &[2], &[3], &[4, 1], &[4, 2]]),
        (4, &[1, 1, 1, 1, 1, 1, 1, 1, 2], &[&[2, 1], &[2, 3], &[2, 4], &[3, 1], &[3, 2], &[3, 4], &[4, 1], &[4, 2], &[1]]),
        (8, &[7, 65_535], &[&[2], &[1]]),
    ];
    for (n, weights, expected) in table {
        assert_eq!(code(n, weights), expected, "{n} cells, {weights:?}");
    }
}

/// The symbols, heaviest first.
fn sequence(weights: &[u16]) -> Vec<usize> {
    let mut symbols: Vec<usize> = (0..weights.len()).collect();
    symbols.sort_by_key(|&symbol| symbols_before(weights, symbol));
    symbols
}

fn symbols_before(weights: &[u16], symbol: usize) -> usize {
    (0..weights.len()).filter(|&other| comes_before(weights, other, symbol)).count()
}

/// Document 001: "When ℓ = n!, the code design becomes trivial." And up to n symbols have one cell each.
#[test]
fn codes_without_a_choice() {
    let mut numbers = Numbers(14);
    for (n, m) in codes().filter(|&(n, m)| m <= n || m as u64 == factorial(n)) {
        let length = if m <= n { 1 } else { n - 1 };
        for weights in numbers.weights(m) {
            let chosen = code(n, &weights);
            let taken: Vec<&Vec<u8>> = sequence(&weights).into_iter().map(|symbol| &chosen[symbol]).collect();
            assert!(taken.into_iter().eq(prefixes(n, length).iter().take(m)), "{n} cells, {weights:?}");
        }
    }
}

/// Equal weights above 0: the lengths are that of the even code and, where its prefixes are not all used, one less too. Where they are, it is the even code.
#[test]
fn equal_weights_beside_the_even_code() {
    for ((n, m), weight) in codes().flat_map(|code| [(code, 1), (code, 65_535)]) {
        let chosen = code(n, &vec![weight; m]);
        let p = prefix_length(n, m as u64);
        let all = factorial(n) / factorial(n - p);
        assert!(lengths(&chosen).iter().all(|&length| length == p || length + 1 == p), "{n} cells, {m} symbols");
        if m as u64 == all {
            let even: Choice = (0..all).map(|symbol| prefix_of_symbol(n, p, symbol)).collect();
            assert_eq!(chosen, even);
        }
    }
}

/// A symbol that gets heavier never gets a longer prefix: with l before and l' after, the sum by the old weights is least for l, and that by the new ones for l'.
#[test]
fn heavier_is_never_longer() {
    for (n, m, most) in [(3, 4, 3), (3, 5, 2), (4, 5, 2), (4, 7, 1), (5, 6, 1)] {
        for (weights, symbol) in weights_to(most, m).into_iter().flat_map(|weights| (0..m).map(move |symbol| (weights.clone(), symbol))) {
            let mut heavier = weights.clone();
            heavier[symbol] += 1;
            assert!(code(n, &heavier)[symbol].len() <= code(n, &weights)[symbol].len(), "{n} cells, {weights:?} {symbol}");
        }
    }
}

/// Only how the weights compare matters: with all of them times the same the code is the same.
#[test]
fn weights_times_the_same() {
    let mut numbers = Numbers(15);
    for (n, m) in codes().filter(|(_, m)| m % 7 == 0) {
        let [_, few, ..] = numbers.weights(m);
        let times: Vec<u16> = few.iter().map(|weight| weight * 32_767).collect();
        assert_eq!(code(n, &times), code(n, &few), "{n} cells, {few:?}");
    }
}
