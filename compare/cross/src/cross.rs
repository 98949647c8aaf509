//! One comparing function per exported function: the raw answer, the `Result` and every lent list afterwards, each beside the model's.
use crate::cases::record;
use crate::held::{held, zero, Rows};
use crate::lent::{Entry, Lent};
use model::{NextStep, Spent};
use std::fmt::Debug;
use turretmedlar::{raw, Permutation, Reason};

/// For a job that takes one list.
const NONE: &[u8] = &[];

/// The comparisons of one test, counted by the reason's number.
#[derive(Default)]
pub struct Cross {
    cases: [u64; 11],
}

impl Cross {
    /// Ends a test: prints its number of cases, and holds that they met these numbers (0 is done) and no others.
    pub fn met(self, numbers: &[usize]) {
        let test = std::thread::current().name().unwrap_or_default().to_string();
        let met: Vec<usize> = (0..self.cases.len()).filter(|&number| self.cases[number] > 0).collect();
        let each: Vec<String> = met.iter().map(|&number| format!("{number}: {}", self.cases[number])).collect();
        println!("{test}: {} cases, by number {}", self.cases.iter().sum::<u64>(), each.join(", "));
        assert_eq!(met, numbers, "the numbers met in {test}");
    }

    fn agree<T>(&mut self, case: &dyn Debug, expected: Result<T, model::Reason>, raw: (u8, T), safe: Result<T, Reason>)
    where
        T: Default + PartialEq + Debug,
    {
        let safe = safe.map_err(|reason| reason as u8);
        let expected = expected.map_err(|reason| reason as u8);
        assert_eq!(safe, expected, "the result of {case:?}");
        self.agree_raw(case, expected, raw);
    }

    /// The raw answer alone, for what no `Result` is given of.
    fn agree_raw<T>(&mut self, case: &dyn Debug, expected: Result<T, u8>, raw: (u8, T))
    where
        T: Default + PartialEq + Debug,
    {
        let whole = expected.map_or_else(|number| (number, T::default()), |value| (0, value));
        assert_eq!(raw, whole, "the raw answer to {case:?}");
        self.cases[usize::from(whole.0)] += 1;
    }

    /// Lends two lists to a job, first guarded, so that a write outside is told with its case, then exact. Gives the first list where the job is done.
    fn lend<A: Entry, B: Entry, T: Default + PartialEq + Debug>(
        &mut self,
        case: &dyn Debug,
        (first, second): (&[A], &[B]),
        model: impl Fn(&mut [A], &mut [B]) -> Result<T, model::Reason>,
        raw: impl Fn(&mut [A], &mut [B]) -> (u8, T),
        safe: impl Fn(&mut [A], &mut [B]) -> Result<T, Reason>,
    ) -> Option<Vec<A>> {
        let (mut expected_first, mut expected_second) = (first.to_vec(), second.to_vec());
        let expected = model(&mut expected_first, &mut expected_second);
        let done = expected.is_ok();
        assert!(done || (expected_first == first && expected_second == second), "the model changed a list in {case:?}");
        let mut lent = (Lent::guarded(first), Lent::guarded(second));
        let raw = raw(lent.0.list(), lent.1.list());
        lent.0.check(&expected_first, case);
        lent.1.check(&expected_second, case);
        let mut lent = (Lent::exact(first), Lent::exact(second));
        let safe = safe(lent.0.list(), lent.1.list());
        lent.0.check(&expected_first, case);
        lent.1.check(&expected_second, case);
        self.agree(case, expected, raw, safe);
        done.then_some(expected_first)
    }

    /// The same for a job that pushes on levels. The model adds jump to jump; its total must be what the levels gained, so that the library's is that too.
    fn lend_to_push(
        &mut self,
        case: &dyn Debug,
        (levels, list): (&[u16], &[u8]),
        model: impl Fn(&mut [u16], &mut [u8]) -> Result<Spent, model::Reason>,
        raw: impl Fn(&mut [u16], &mut [u8]) -> raw::Pushes,
        safe: impl Fn(&mut [u16], &mut [u8]) -> Result<turretmedlar::Spent, Reason>,
    ) -> Option<Vec<u16>> {
        let sum = |levels: &[u16]| levels.iter().map(|&level| u64::from(level)).sum::<u64>();
        let model = |levels: &mut [u16], list: &mut [u8]| {
            let before = sum(levels);
            let spent = model(levels, list)?;
            assert_eq!(before + u64::from(spent.charge), sum(levels), "the sum of the levels after {case:?}");
            Ok(spent)
        };
        self.lend(case, (levels, list), model, |levels, list| pushes(raw(levels, list)), |levels, list| safe(levels, list).map(spent))
    }

    pub fn push(&mut self, record: Permutation, place: usize) {
        let expected = model::push(&twin(record), place).map(of_model);
        let safe = turretmedlar::push(record, place).map(of_library);
        self.agree(&("push", record, place), expected, permuted(raw::push(record, place)), safe);
    }

    pub fn successor(&mut self, record: Permutation) {
        let safe = turretmedlar::successor(record).map(next_step);
        self.agree(&("successor", record), model::successor(&twin(record)), placed(raw::successor(record)), safe);
    }

    pub fn digits(&mut self, record: Permutation) {
        let answer = raw::digits(record);
        self.agree(&("digits", record), model::digits(&twin(record)), (answer.number, answer.row), turretmedlar::digits(record));
    }

    pub fn rank(&mut self, record: Permutation) {
        let answer = raw::rank(record);
        let expected = model::rank(&twin(record));
        assert_eq!(model::rank_by_weights(&twin(record)), expected, "{record:?}");
        self.agree(&("rank", record), expected, (answer.number, answer.rank), turretmedlar::rank(record));
    }

    pub fn unrank(&mut self, n: usize, rank: u64) {
        let safe = turretmedlar::unrank(n, rank).map(of_library);
        self.agree(&("unrank", n, rank), model::unrank(n, rank).map(of_model), permuted(raw::unrank(n, rank)), safe);
    }

    /// The zero by its number, and by its name where it has one.
    pub fn value(&mut self, record: Permutation, number: u8) {
        let case = ("value", record, number);
        let answer = raw::value(record, number);
        let (raw, expected) = ((answer.number, answer.value), model::value_by_number(&twin(record), number));
        match model::Zero::from_number(number) {
            Ok(named) => self.agree(&case, expected, raw, turretmedlar::value(record, zero(named))),
            Err(_) => self.agree_raw(&case, expected.map_err(|reason| reason as u8), raw),
        }
    }

    pub fn permutation_of_value(&mut self, n: usize, value: u64, number: u8) {
        let case = ("permutation_of_value", n, value, number);
        let (raw, expected) = (permuted(raw::permutation_of_value(n, value, number)), model::permutation_by_number(n, value, number).map(of_model));
        match model::Zero::from_number(number) {
            Ok(named) => self.agree(&case, expected, raw, turretmedlar::permutation_of_value(n, value, zero(named)).map(of_library)),
            Err(_) => self.agree_raw(&case, expected.map_err(|reason| reason as u8), raw),
        }
    }

    pub fn read(&mut self, levels: &[u16]) {
        self.lend(
            &("read", levels),
            (levels, NONE),
            |levels, _| model::read(levels).map(of_model),
            |levels, _| permuted(raw::read(levels)),
            |levels, _| turretmedlar::read(levels).map(of_library),
        );
    }

    pub fn push_level(&mut self, levels: &[u16], place: usize) -> Option<Vec<u16>> {
        self.lend_to_push(
            &("push_level", levels, place),
            (levels, NONE),
            |levels, _| model::push_level(levels, place),
            |levels, _| raw::push_level(levels, place),
            |levels, _| turretmedlar::push_level(levels, place),
        )
    }

    pub fn count_up(&mut self, levels: &[u16], k: u32) -> Option<Vec<u16>> {
        self.lend_to_push(
            &("count_up", levels, k),
            (levels, NONE),
            |levels, _| model::count_up(levels, k),
            |levels, _| raw::count_up(levels, k),
            |levels, _| turretmedlar::count_up(levels, k),
        )
    }

    pub fn rewrite(&mut self, levels: &[u16], target: Permutation, list: &[u8]) -> Option<Vec<u16>> {
        self.lend_to_push(
            &("rewrite", levels, target, list),
            (levels, list),
            |levels, list| model::rewrite(levels, &twin(target), list),
            |levels, list| raw::rewrite(levels, target, list),
            |levels, list| turretmedlar::rewrite(levels, target, list),
        )
    }

    pub fn within_reach(&mut self, levels: &[u16], r: usize, list: &[u8]) {
        self.lend(
            &("within_reach", levels, r, list.len()),
            (levels, list),
            |levels, list| model::within_reach(levels, r, list),
            |levels, list| reached(raw::within_reach(levels, r, list)),
            |levels, list| turretmedlar::within_reach(levels, r, list),
        );
    }

    pub fn store(&mut self, levels: &[u16], m: u64, symbol: u64) -> Option<Vec<u16>> {
        self.lend_to_push(
            &("store", levels, m, symbol),
            (levels, NONE),
            |levels, _| model::store(levels, m, symbol),
            |levels, _| raw::store(levels, m, symbol),
            |levels, _| turretmedlar::store(levels, m, symbol),
        )
    }

    pub fn read_symbol(&mut self, levels: &[u16], m: u64) {
        self.lend(
            &("read_symbol", levels, m),
            (levels, NONE),
            |levels, _| model::read_symbol(levels, m),
            |levels, _| symbol(raw::read_symbol(levels, m)),
            |levels, _| turretmedlar::read_symbol(levels, m),
        );
    }

    pub fn read_bands(&mut self, lowest: &[u16], highest: &[u16]) {
        self.lend(
            &("read_bands", lowest, highest),
            (lowest, highest),
            |lowest, highest| model::read_bands(lowest, highest).map(of_model),
            |lowest, highest| permuted(raw::read_bands(lowest, highest)),
            |lowest, highest| turretmedlar::read_bands(lowest, highest).map(of_library),
        );
    }

    pub fn read_symbol_bands(&mut self, lowest: &[u16], highest: &[u16], m: u64) {
        self.lend(
            &("read_symbol_bands", lowest, highest, m),
            (lowest, highest),
            |lowest, highest| model::read_symbol_bands(lowest, highest, m),
            |lowest, highest| symbol(raw::read_symbol_bands(lowest, highest, m)),
            |lowest, highest| turretmedlar::read_symbol_bands(lowest, highest, m),
        );
    }

    pub fn prefix_uneven(&mut self, n: usize, weights: &[u16], m: u64, symbol: u64) {
        self.lend(
            &("prefix_uneven", n, weights, m, symbol),
            (weights, NONE),
            |weights, _| model::prefix_uneven(n, weights, m, symbol).map(|names| of_library(record(&names))),
            |weights, _| prefixed(raw::prefix_uneven(n, weights, m, symbol)),
            |weights, _| turretmedlar::prefix_uneven(n, weights, m, symbol).map(|prefix| (prefix.length, prefix.cells)),
        );
    }

    /// The weights are lent beside the levels.
    pub fn store_uneven(&mut self, levels: &[u16], weights: &[u16], m: u64, symbol: u64) -> Option<Vec<u16>> {
        let case = ("store_uneven", levels, weights, m, symbol);
        self.lend_to_push(
            &case,
            (levels, NONE),
            |levels, _| model::store_uneven(levels, weights, m, symbol),
            |levels, _| beside(Lent::guarded(weights), weights, &case, |weights| raw::store_uneven(levels, weights, m, symbol)),
            |levels, _| beside(Lent::exact(weights), weights, &case, |weights| turretmedlar::store_uneven(levels, weights, m, symbol)),
        )
    }

    pub fn read_uneven(&mut self, levels: &[u16], weights: &[u16], m: u64) {
        self.lend(
            &("read_uneven", levels, weights, m),
            (levels, weights),
            |levels, weights| model::read_uneven(levels, weights, m),
            |levels, weights| symbol(raw::read_uneven(levels, weights, m)),
            |levels, weights| turretmedlar::read_uneven(levels, weights, m),
        );
    }

    /// The new arrangement is lent beside the old one and the list for the raised levels.
    pub fn rearrange(&mut self, (q, z): (usize, usize), old: &[u8], new: &[u8], list: &[u8]) {
        let case = ("rearrange", q, z, old, new, list.len());
        self.lend(
            &case,
            (old, list),
            |old, list| model::rearrange(q, z, old, new, list),
            |old, list| rearranged(beside(Lent::guarded(new), new, &case, |new| raw::rearrange(q, z, old, new, list))),
            |old, list| beside(Lent::exact(new), new, &case, |new| turretmedlar::rearrange(q, z, old, new, list)),
        );
    }

    /// The sheet's text is the model's, found by the caller, who may lend many buffers. A faulty sheet counts by its own number.
    pub fn bench(&mut self, sheet: &[u8], text: &[u8], buffer: &[u8]) {
        let done = self.lend(
            &("bench", sheet, String::from_utf8_lossy(text), buffer.len()),
            (sheet, buffer),
            |_, buffer| lay(text, buffer),
            |sheet, buffer| printed(raw::bench(sheet, buffer)),
            |sheet, buffer| turretmedlar::bench(sheet, buffer),
        );
        if done.is_some() && text[0] == b's' {
            self.cases[0] -= 1;
            self.cases[usize::from(text[2] - b'0')] += 1;
        }
    }

    /// A held sheet by its types, then by its lists. Gives its bytes, or the number for which it is refused.
    pub fn write_sheet(&mut self, sheet: &model::Sheet, out: &[u8]) -> Result<Vec<u8>, u8> {
        let case = ("write_sheet", sheet, out.len());
        let mut expected_out = out.to_vec();
        let expected = model::write_sheet(sheet, &mut expected_out).map_err(|reason| reason as u8);
        let (groups, commands) = held(sheet);
        let mut lent = Lent::exact(out);
        let safe = turretmedlar::write_sheet(&groups, &commands, lent.list());
        lent.check(&expected_out, &case);
        assert_eq!(safe.map_err(|reason| reason as u8), expected, "the result of {case:?}");
        self.write_rows(&Rows::of(sheet), out)
    }

    /// The same by lists, which may be wrong, lent first guarded, then exact.
    pub fn write_rows(&mut self, rows: &Rows, out: &[u8]) -> Result<Vec<u8>, u8> {
        let case = ("write_rows", rows, out.len());
        let mut expected_out = out.to_vec();
        let expected = rows.sheet().and_then(|sheet| model::write_sheet(&sheet, &mut expected_out)).map_err(|reason| reason as u8);
        let [raw, again] = [true, false].map(|guarded| {
            let mut lent = Lent::of(out, guarded);
            let answer = rows.write(guarded, lent.list(), &case);
            lent.check(&expected_out, &case);
            answer
        });
        assert_eq!(raw, again, "the raw answers to {case:?}");
        self.agree_raw(&case, expected, raw);
        expected.map(|length| expected_out[..length].to_vec())
    }
}

/// Lends one more list to a job, which must leave it as it was.
fn beside<T: Entry, A>(mut lent: Lent<T>, list: &[T], case: &dyn Debug, job: impl FnOnce(&[T]) -> A) -> A {
    let answer = job(lent.list());
    lent.check(list, case);
    answer
}

/// A number and the names, of a permutation or of a prefix.
type Record = (usize, [u8; 20]);

/// The model's record.
pub fn twin(record: Permutation) -> model::Permutation {
    model::Permutation { n: record.n, cells: record.cells }
}

fn of_model(record: model::Permutation) -> Record {
    (record.n, record.cells)
}

fn of_library(record: Permutation) -> Record {
    (record.n, record.cells)
}

fn permuted(answer: raw::Permuted) -> (u8, Record) {
    (answer.number, of_library(answer.permutation))
}

/// The model's words for the next step.
fn next_step(step: turretmedlar::NextStep) -> NextStep {
    NextStep { place: step.place, tests: step.tests, size: step.size }
}

fn placed(answer: raw::Placed) -> (u8, NextStep) {
    (answer.number, NextStep { place: answer.place, tests: answer.tests, size: answer.size })
}

/// The model's words for what was spent.
pub fn spent(spent: turretmedlar::Spent) -> Spent {
    Spent { pushes: spent.pushes, charge: spent.charge }
}

fn pushes(answer: raw::Pushes) -> (u8, Spent) {
    (answer.number, Spent { pushes: answer.pushes, charge: answer.charge })
}

fn reached(answer: raw::Reached) -> (u8, usize) {
    (answer.number, answer.permutations)
}

fn symbol(answer: raw::Symbol) -> (u8, u64) {
    (answer.number, answer.symbol)
}

fn prefixed(answer: raw::Prefixed) -> (u8, Record) {
    (answer.number, (answer.length, answer.cells))
}

fn rearranged(answer: raw::Rearranged) -> (u8, u8) {
    (answer.number, answer.cost)
}

fn printed(answer: raw::Printed) -> (u8, usize) {
    (answer.number, answer.length)
}

/// The whole text at the start of the buffer, or `Fit`.
fn lay(text: &[u8], buffer: &mut [u8]) -> Result<usize, model::Reason> {
    buffer.get_mut(..text.len()).ok_or(model::Reason::Fit)?.copy_from_slice(text);
    Ok(text.len())
}
