//! Safe Rust bindings of Turretmedlar: groups of 2 to 20 cells that store by order of charge, and arrangements of up to 64 cells with several to a level. Every
//! function takes any input; a refused job gives its reason and leaves every lent list as it was. The functions are those of `include/turretmedlar.h`, which says
//! more of each; [`raw`] has their answers as they cross. They use no heap.
#![no_std]

pub mod raw;
mod sheet;

use core::{error, fmt};
pub use raw::Permutation;
pub use sheet::{Action, Command, Group};

/// The version of this package, as the header's `TM_VERSION` says it.
pub const VERSION: &str = env!("CARGO_PKG_VERSION");
/// The longest bench sheet. A buffer of so many bytes has room for any.
pub const SHEET_BYTES: usize = 24_692;
/// A buffer of so many bytes has room for the text of any sheet.
pub const TEXT_BYTES: usize = 31_344;

/// Why a job is refused, by the numbers and words of documents 01 and 02. Where several hold, the lowest is given, but Unsure before Idle, and of a listing Fit
/// last; of a sheet, the first met in its sequence.
#[repr(u8)]
#[derive(Clone, Copy, Debug, PartialEq, Eq, PartialOrd, Ord)]
pub enum Reason {
    /// n is below 2 or above 20, of the group or of a target; for an uneven code n is above 8; of an arrangement q is outside 2 to 16, z outside 1 to 16, or q × z
    /// above 64.
    Size = 1,
    /// A target's n differs from the group's, the two lists of bands differ in length, a push list has fewer than n - 1 bytes, a buffer is too short for a text
    /// or a listing, a list of weights has not m entries, or a list of an arrangement not q × z.
    Fit = 2,
    /// A record is no permutation; on a sheet to be written, it has a name past n. An arrangement has a level outside 1 to q, or one that is not used z times.
    Muddle = 3,
    /// Two levels are equal.
    Tie = 4,
    /// A rank, value, place, m, symbol or r is outside its range, a lowest level is above its highest, or a listing would exceed 65,536 bytes.
    Value = 5,
    /// The highest level plus the job's pushes exceeds 65,535.
    Ceiling = 6,
    /// None of the m symbols' prefixes leads.
    Idle = 7,
    /// A bench sheet is ill-formed, as its text tells; or one to be written has no group, too many groups or commands, or a command whose group is not there.
    Sheet = 8,
    /// The bytes lent are fewer than those of the sheet to be written.
    Paper = 9,
    /// Bands leave open which permutation it is, or which prefix leads.
    Unsure = 10,
}

/// Each reason beside its word, by number from 1.
const REASONS: [(Reason, &str); 10] = [
    (Reason::Size, "size"),
    (Reason::Fit, "fit"),
    (Reason::Muddle, "muddle"),
    (Reason::Tie, "tie"),
    (Reason::Value, "value"),
    (Reason::Ceiling, "ceiling"),
    (Reason::Idle, "idle"),
    (Reason::Sheet, "sheet"),
    (Reason::Paper, "paper"),
    (Reason::Unsure, "unsure"),
];

impl fmt::Display for Reason {
    fn fmt(&self, f: &mut fmt::Formatter<'_>) -> fmt::Result {
        f.write_str(REASONS[*self as usize - 1].1)
    }
}

impl error::Error for Reason {}

/// The zero of a group (document 02): the permutation from which its value is counted.
#[repr(u8)]
#[derive(Clone, Copy, Debug, Default, PartialEq, Eq)]
pub enum Zero {
    /// The permutation of rank 0, so that the value is the rank.
    #[default]
    Old = 0,
    /// `[1, 2, ..., n]`.
    New = 1,
}

impl Permutation {
    /// The record of these names, highest charge first. More than 20 names have none; all else is for the jobs to judge.
    pub fn new(names: &[u8]) -> Result<Permutation, Reason> {
        let mut cells = [0; 20];
        cells.get_mut(..names.len()).ok_or(Reason::Size)?.copy_from_slice(names);
        Ok(Permutation { n: names.len(), cells })
    }

    /// The names in the first n places; all twenty where n is above 20.
    pub fn names(&self) -> &[u8] {
        &self.cells[..self.n.min(20)]
    }
}

/// The next step, and how it was chosen.
#[derive(Clone, Copy, Debug, PartialEq, Eq)]
pub struct NextStep {
    /// The place that it pushes, 2 to n.
    pub place: usize,
    /// How many times "is the largest cell on top" was tested. Two cells are not tested, so that n = 2 has none.
    pub tests: usize,
    /// The size of the shrunken group at which the answer fell: the first whose largest cell is not on top, or 2. A group whose largest cell is on top shrinks to
    /// its other cells, lowest first.
    pub size: usize,
}

/// A prefix: the names that lead a permutation, highest charge first.
#[derive(Clone, Copy, Debug, PartialEq, Eq)]
pub struct Prefix {
    /// How many names it has, 1 to n - 1.
    pub length: usize,
    /// The names, and 0 past them.
    pub cells: [u8; 20],
}

impl Prefix {
    /// The names; all twenty places where the length is above 20.
    pub fn names(&self) -> &[u8] {
        &self.cells[..self.length.min(20)]
    }
}

/// What a job that pushes on levels spends, when done.
#[derive(Clone, Copy, Debug, PartialEq, Eq)]
pub struct Spent {
    /// The number of pushes.
    pub pushes: u32,
    /// The total of their jumps. The jump of a push is its cell's new level less the old, so that the total is the sum of all levels afterwards less the sum before.
    pub charge: u32,
}

fn given<T>(number: u8, value: T) -> Result<T, Reason> {
    if number == 0 {
        Ok(value)
    } else {
        Err(REASONS[number as usize - 1].0)
    }
}

fn spent(answer: raw::Pushes) -> Result<Spent, Reason> {
    given(answer.number, Spent { pushes: answer.pushes, charge: answer.charge })
}

/// The permutation after a push at a place from 2 to n.
/// Refused: Size, Muddle, Value.
pub fn push(permutation: Permutation, place: usize) -> Result<Permutation, Reason> {
    let answer = raw::push(permutation, place);
    given(answer.number, answer.permutation)
}

/// The place that the next step pushes, and how it was chosen.
/// Refused: Size, Muddle.
pub fn successor(permutation: Permutation) -> Result<NextStep, Reason> {
    let answer = raw::successor(permutation);
    given(answer.number, NextStep { place: answer.place, tests: answer.tests, size: answer.size })
}

/// The digits of the rank, b0 first, with 0 past n.
/// Refused: Size, Muddle.
pub fn digits(permutation: Permutation) -> Result<[u8; 20], Reason> {
    let answer = raw::digits(permutation);
    given(answer.number, answer.row)
}

/// The rank, 0 to n! - 1: how many steps lead here from the permutation of rank 0.
/// Refused: Size, Muddle.
pub fn rank(permutation: Permutation) -> Result<u64, Reason> {
    let answer = raw::rank(permutation);
    given(answer.number, answer.rank)
}

/// The permutation of n cells that has this rank.
/// Refused: Size, Value.
pub fn unrank(n: usize, rank: u64) -> Result<Permutation, Reason> {
    let answer = raw::unrank(n, rank);
    given(answer.number, answer.permutation)
}

/// The value on a zero, 0 to n! - 1: the rank less the rank of the zero's permutation, modulo n!. k steps add k to it, modulo n!.
/// Refused: Size, Muddle.
pub fn value(permutation: Permutation, zero: Zero) -> Result<u64, Reason> {
    let answer = raw::value(permutation, zero as u8);
    given(answer.number, answer.value)
}

/// The permutation of n cells that has this value on a zero.
/// Refused: Size, Value.
pub fn permutation_of_value(n: usize, value: u64, zero: Zero) -> Result<Permutation, Reason> {
    let answer = raw::permutation_of_value(n, value, zero as u8);
    given(answer.number, answer.permutation)
}

/// The permutation of levels, highest first.
/// Refused: Size, Tie.
pub fn read(levels: &[u16]) -> Result<Permutation, Reason> {
    let answer = raw::read(levels);
    given(answer.number, answer.permutation)
}

/// Pushes the cell at a place, and gives the number of pushes, 1, and its jump as the charge.
/// Refused: Size, Tie, Value, Ceiling.
pub fn push_level(levels: &mut [u16], place: usize) -> Result<Spent, Reason> {
    spent(raw::push_level(levels, place))
}

/// Does k next steps, and gives the number of pushes, k, and the total of their jumps; both are 0 where k is.
/// Refused: Size, Tie, Ceiling.
pub fn count_up(levels: &mut [u16], k: u32) -> Result<Spent, Reason> {
    spent(raw::count_up(levels, k))
}

/// Makes the levels read as the target by the fewest pushes. Their names go to the start of the list; their number and the total of their jumps are given.
/// The list needs n - 1 bytes.
/// Refused: Size, Fit, Muddle, Tie, Ceiling.
pub fn rewrite(levels: &mut [u16], target: Permutation, list: &mut [u8]) -> Result<Spent, Reason> {
    spent(raw::rewrite(levels, target, list))
}

/// Lists into the first bytes of `list`, n names apiece, every permutation that r pushes or fewer lead to from that of the levels: those that need the fewest
/// first, and those that need equally many in lexicographic sequence. Gives how many there are, n!/(n-r)!; the later bytes keep their values. Nothing is pushed.
/// Refused: Size, Tie, Value (r is above n - 1, or the listing would exceed 65,536 bytes), and then Fit, `list` is shorter than the listing.
pub fn within_reach(levels: &[u16], r: usize, list: &mut [u8]) -> Result<usize, Reason> {
    let answer = raw::within_reach(levels, r, list);
    given(answer.number, answer.permutations)
}

/// Stores a symbol of a code of m symbols by the fewest pushes, none where it stands already, and gives their number and the total of their jumps.
/// Refused: Size, Tie, Value, Ceiling.
pub fn store(levels: &mut [u16], m: u64, symbol: u64) -> Result<Spent, Reason> {
    spent(raw::store(levels, m, symbol))
}

/// The symbol that stands, of a code of m symbols.
/// Refused: Size, Tie, Value, Idle.
pub fn read_symbol(levels: &[u16], m: u64) -> Result<u64, Reason> {
    let answer = raw::read_symbol(levels, m);
    given(answer.number, answer.symbol)
}

/// The permutation of levels of which a lowest and a highest are known, by cell: the one that every choice of levels from these bands gives, without a tie in
/// any.
/// Refused: Size, Fit, Value, Unsure.
pub fn read_bands(lowest: &[u16], highest: &[u16]) -> Result<Permutation, Reason> {
    let answer = raw::read_bands(lowest, highest);
    given(answer.number, answer.permutation)
}

/// The symbol that stands in every such choice, of a code of m symbols; ties below its prefix do not matter.
/// Refused: Size, Fit, Value, Unsure, and then Idle.
pub fn read_symbol_bands(lowest: &[u16], highest: &[u16], m: u64) -> Result<u64, Reason> {
    let answer = raw::read_symbol_bands(lowest, highest, m);
    given(answer.number, answer.symbol)
}

/// The prefix of a symbol in the uneven code of m symbols, 2 to 64 and at most n!, on n cells, 2 to 8. Each symbol has a weight, and a prefix of 1 to n - 1 names, none
/// the start of another, so that the sum of weight times length is least. Among equals the lengths sorted from short to long come first lexicographically. Heavier
/// symbols have the shorter ones, the lower symbol first where weights are equal; in that sequence each has the first prefix of its length, lexicographically, that no
/// earlier one starts. So n and the weights say the whole code, and each call works it out.
/// Refused: Size, Fit (there are not m weights), Value.
pub fn prefix_uneven(n: usize, weights: &[u16], m: u64, symbol: u64) -> Result<Prefix, Reason> {
    let answer = raw::prefix_uneven(n, weights, m, symbol);
    given(answer.number, Prefix { length: answer.length, cells: answer.cells })
}

/// Stores a symbol of that code, as [`store`] does with the even one: by the fewest pushes, none where it stands already. Gives their number and the total of their
/// jumps.
/// Refused: Size, Fit, Tie, Value, Ceiling.
pub fn store_uneven(levels: &mut [u16], weights: &[u16], m: u64, symbol: u64) -> Result<Spent, Reason> {
    spent(raw::store_uneven(levels, weights, m, symbol))
}

/// The symbol of that code that stands: after [`store_uneven`] with the same weights, the one stored. Nothing is said of one that was stored with other weights or by
/// [`store`].
/// Refused: Size, Fit, Tie, Value, Idle.
pub fn read_uneven(levels: &[u16], weights: &[u16], m: u64) -> Result<u64, Reason> {
    let answer = raw::read_uneven(levels, weights, m);
    given(answer.number, answer.symbol)
}

/// The cost of changing one arrangement into another. An arrangement gives each of q × z cells a level from 1 to q, each level used z times. Cells only rise, by
/// whole levels, and then every cell of a lower new level is strictly below every cell of a higher one. The cost is how far the highest level rises above q: the
/// largest of old level less new level, and the least possible. Into `list` go the raised levels, each cell's new level plus the cost, at most 31. All three lists
/// have q × z entries, one for each cell. The next change takes `new` as old, and the costs add up.
/// Refused: Size, Fit, Muddle.
pub fn rearrange(q: usize, z: usize, old: &[u8], new: &[u8], list: &mut [u8]) -> Result<u8, Reason> {
    let answer = raw::rearrange(q, z, old, new, list);
    given(answer.number, answer.cost)
}

/// The whole text of a bench sheet, a faulty one's too, in the first bytes of `text`; gives their number. [`TEXT_BYTES`] are always enough. The value of a group is
/// that on the zero on which the commands leave it.
/// It needs 256 KiB of stack.
/// Refused: Fit.
pub fn bench(sheet: &[u8], text: &mut [u8]) -> Result<usize, Reason> {
    let answer = raw::bench(sheet, text);
    given(answer.number, answer.length)
}

/// Writes the bench sheet of these groups and commands to the first bytes of `out`, and gives their number; the later ones keep their values. [`SHEET_BYTES`] are
/// always enough. [`bench()`] reads the same groups and commands from it. Document 01's example has the group `Group::new(&[3, 1, 2])?` and the commands
/// `Command::count(0, 4)`, `Command::rewrite(0, Permutation::new(&[3, 1, 2])?)` and `Command::store(0, 3, 3)`: 39 bytes. With `.on(Zero::New)` after its group
/// it has 41: a group is written on the zero on which it starts. `Command::change_zero(0)` moves it between two commands, and takes two bytes.
/// It needs 256 KiB of stack.
/// Refused, by the first that is met: Sheet, there is no group or more than 64; of each group in turn Size, then Tie; Sheet, there are more than 1,000 commands; of
/// each command in turn Sheet, its group is not there, and of a rewrite Fit, its n is not the group's, then Muddle, a name past n is not 0; after all others Paper,
/// `out` is shorter than the sheet. Names inside n, k, m and the symbol are written as they stand: the sheet's text tells which commands are refused.
pub fn write_sheet(groups: &[Group], commands: &[Command], out: &mut [u8]) -> Result<usize, Reason> {
    let answer = sheet::write(groups, commands, out);
    given(answer.number, answer.length)
}
