//! Lists as they are lent, each in an allocation of its own.
use std::fmt::Debug;
use std::hint::black_box;

/// Entries on each side of a guarded list: more than a group has cells, and odd, so that the list is aligned no more than its entries need.
const GUARDS: usize = 23;

pub trait Entry: Copy + PartialEq + Debug {
    /// A value that a job would hardly write there.
    fn guard(index: usize) -> Self;
}

impl Entry for u8 {
    // Neither a name nor a character of a text.
    fn guard(index: usize) -> u8 {
        128 + (index % 128) as u8
    }
}

impl Entry for u16 {
    fn guard(index: usize) -> u16 {
        0xBAD0 ^ index as u16
    }
}

impl Entry for u64 {
    fn guard(index: usize) -> u64 {
        0xBAD0_BAD0_BAD0_BAD0 ^ index as u64
    }
}

impl Entry for usize {
    fn guard(index: usize) -> usize {
        u64::guard(index) as usize
    }
}

/// Bytes to lend, none of which is a name, a character of a text or a 0.
pub fn fill(length: usize) -> Vec<u8> {
    (0..length).map(|index| 255 - (index % 101) as u8).collect()
}

/// A list with guard entries on both sides, or exact: the allocation is the list, so that memcheck sees each access outside it.
pub struct Lent<T> {
    whole: Box<[T]>,
    guards: usize,
}

impl<T: Entry> Lent<T> {
    pub fn guarded(list: &[T]) -> Lent<T> {
        let guard = |start: usize| (start..start + GUARDS).map(T::guard);
        let whole = guard(0).chain(list.iter().copied()).chain(guard(GUARDS)).collect();
        Lent { whole, guards: GUARDS }
    }

    pub fn exact(list: &[T]) -> Lent<T> {
        Lent { whole: list.into(), guards: 0 }
    }

    pub fn of(list: &[T], guarded: bool) -> Lent<T> {
        if guarded {
            Lent::guarded(list)
        } else {
            Lent::exact(list)
        }
    }

    pub fn list(&mut self) -> &mut [T] {
        let end = self.whole.len() - self.guards;
        &mut self.whole[self.guards..end]
    }

    /// Holds that the list is as expected and its guards are untouched. `black_box` keeps the compiler from taking a list lent for reading as unchanged.
    pub fn check(&self, expected: &[T], case: &dyn Debug) {
        let whole = black_box(&self.whole);
        let (before, rest) = whole.split_at(self.guards);
        let (list, after) = rest.split_at(rest.len() - self.guards);
        assert_eq!(list, expected, "the list lent in {case:?}");
        let untouched = before.iter().chain(after).enumerate().all(|(index, &entry)| entry == T::guard(index));
        assert!(untouched, "written outside the list: {before:?} and {after:?} in {case:?}");
    }
}
