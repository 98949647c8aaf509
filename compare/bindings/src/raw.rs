//! The answers as they cross: a number first, 0 where the job is done, and zeros beside any other number. `include/turretmedlar.h` says of each function what
//! it does, its refusals and what it leaves unchanged; the functions of the same names at the root of this package give the same as a `Result`.
use core::mem::{offset_of, size_of};

/// Document 01: an order. The first n places hold each of 1 to n once, highest charge first; the places past n hold 0.
#[repr(C)]
#[derive(Clone, Copy, Debug, PartialEq, Eq)]
pub struct Permutation {
    pub n: usize,
    pub cells: [u8; 20],
}

/// What [`push`], [`unrank`], [`permutation_of_value`], [`read`] and [`read_bands`] answer.
#[repr(C)]
#[derive(Clone, Copy, Debug, PartialEq, Eq)]
pub struct Permuted {
    pub number: u8,
    pub permutation: Permutation,
}

/// What [`successor`] answers: a place from 2 to n, and how it was chosen.
#[repr(C)]
#[derive(Clone, Copy, Debug, PartialEq, Eq)]
pub struct Placed {
    pub number: u8,
    pub place: usize,
    pub tests: usize,
    pub size: usize,
}

/// What [`digits`] answers: b0 first, 0 past n.
#[repr(C)]
#[derive(Clone, Copy, Debug, PartialEq, Eq)]
pub struct Digits {
    pub number: u8,
    pub row: [u8; 20],
}

/// What [`rank`] answers.
#[repr(C)]
#[derive(Clone, Copy, Debug, PartialEq, Eq)]
pub struct Ranked {
    pub number: u8,
    pub rank: u64,
}

/// What [`value`] answers.
#[repr(C)]
#[derive(Clone, Copy, Debug, PartialEq, Eq)]
pub struct Valued {
    pub number: u8,
    pub value: u64,
}

/// What the jobs that push on levels answer: how many pushes they did, and the charge that these spent.
#[repr(C)]
#[derive(Clone, Copy, Debug, PartialEq, Eq)]
pub struct Pushes {
    pub number: u8,
    pub pushes: u32,
    pub charge: u32,
}

/// What [`within_reach`] answers: how many permutations it listed.
#[repr(C)]
#[derive(Clone, Copy, Debug, PartialEq, Eq)]
pub struct Reached {
    pub number: u8,
    pub permutations: usize,
}

/// What [`read_symbol`], [`read_symbol_bands`] and [`read_uneven`] answer.
#[repr(C)]
#[derive(Clone, Copy, Debug, PartialEq, Eq)]
pub struct Symbol {
    pub number: u8,
    pub symbol: u64,
}

/// What [`prefix_uneven`] answers: the length of the prefix, and its cells with 0 past them.
#[repr(C)]
#[derive(Clone, Copy, Debug, PartialEq, Eq)]
pub struct Prefixed {
    pub number: u8,
    pub length: usize,
    pub cells: [u8; 20],
}

/// What [`rearrange`] answers: how far the highest level rises above q.
#[repr(C)]
#[derive(Clone, Copy, Debug, PartialEq, Eq)]
pub struct Rearranged {
    pub number: u8,
    pub cost: u8,
}

/// What [`bench()`] answers: the length of the text.
#[repr(C)]
#[derive(Clone, Copy, Debug, PartialEq, Eq)]
pub struct Printed {
    pub number: u8,
    pub length: usize,
}

/// What [`write_sheet`] answers: the length of the sheet.
#[repr(C)]
#[derive(Clone, Copy, Debug, PartialEq, Eq)]
pub struct Written {
    pub number: u8,
    pub length: usize,
}

// The layouts that compare/c/check.c asserts too.
const _: () = assert!(size_of::<Permutation>() == 32 && offset_of!(Permutation, cells) == 8);
const _: () = assert!(size_of::<Permuted>() == 40 && offset_of!(Permuted, permutation) == 8);
const _: () = assert!(size_of::<Placed>() == 32 && offset_of!(Placed, place) == 8 && offset_of!(Placed, tests) == 16 && offset_of!(Placed, size) == 24);
const _: () = assert!(size_of::<Digits>() == 21 && offset_of!(Digits, row) == 1);
const _: () = assert!(size_of::<Ranked>() == 16 && offset_of!(Ranked, rank) == 8);
const _: () = assert!(size_of::<Valued>() == 16 && offset_of!(Valued, value) == 8);
const _: () = assert!(size_of::<Pushes>() == 12 && offset_of!(Pushes, pushes) == 4 && offset_of!(Pushes, charge) == 8);
const _: () = assert!(size_of::<Reached>() == 16 && offset_of!(Reached, permutations) == 8);
const _: () = assert!(size_of::<Symbol>() == 16 && offset_of!(Symbol, symbol) == 8);
const _: () = assert!(size_of::<Prefixed>() == 40 && offset_of!(Prefixed, length) == 8 && offset_of!(Prefixed, cells) == 16);
const _: () = assert!(size_of::<Rearranged>() == 2 && offset_of!(Rearranged, cost) == 1);
const _: () = assert!(size_of::<Printed>() == 16 && offset_of!(Printed, length) == 8);
const _: () = assert!(size_of::<Written>() == 16 && offset_of!(Written, length) == 8);

mod library {
    use super::*;

    // A lent list crosses as its address and its length.
    extern "C" {
        pub fn tm_push(permutation: Permutation, place: usize) -> Permuted;
        pub fn tm_successor(permutation: Permutation) -> Placed;
        pub fn tm_digits(permutation: Permutation) -> Digits;
        pub fn tm_rank(permutation: Permutation) -> Ranked;
        pub fn tm_unrank(n: usize, rank: u64) -> Permuted;
        pub fn tm_value(permutation: Permutation, zero: u8) -> Valued;
        pub fn tm_permutation_of_value(n: usize, value: u64, zero: u8) -> Permuted;
        pub fn tm_read(levels: *const u16, n: usize) -> Permuted;
        pub fn tm_push_level(levels: *mut u16, n: usize, place: usize) -> Pushes;
        pub fn tm_count_up(levels: *mut u16, n: usize, k: u32) -> Pushes;
        pub fn tm_rewrite(levels: *mut u16, n: usize, target: Permutation, list: *mut u8, room: usize) -> Pushes;
        pub fn tm_within_reach(levels: *const u16, n: usize, r: usize, list: *mut u8, room: usize) -> Reached;
        pub fn tm_store(levels: *mut u16, n: usize, m: u64, symbol: u64) -> Pushes;
        pub fn tm_read_symbol(levels: *const u16, n: usize, m: u64) -> Symbol;
        pub fn tm_read_bands(lowest: *const u16, n: usize, highest: *const u16, highest_length: usize) -> Permuted;
        pub fn tm_read_symbol_bands(lowest: *const u16, n: usize, highest: *const u16, highest_length: usize, m: u64) -> Symbol;
        pub fn tm_prefix_uneven(n: usize, weights: *const u16, weights_length: usize, m: u64, symbol: u64) -> Prefixed;
        pub fn tm_store_uneven(levels: *mut u16, n: usize, weights: *const u16, weights_length: usize, m: u64, symbol: u64) -> Pushes;
        pub fn tm_read_uneven(levels: *const u16, n: usize, weights: *const u16, weights_length: usize, m: u64) -> Symbol;
        pub fn tm_rearrange(
            q: usize,
            z: usize,
            old_levels: *const u8,
            old_length: usize,
            new_levels: *const u8,
            new_length: usize,
            list: *mut u8,
            list_length: usize,
        ) -> Rearranged;
        pub fn tm_bench(sheet: *const u8, length: usize, text: *mut u8, room: usize) -> Printed;
        pub fn tm_write_sheet(
            sizes: *const usize,
            sizes_length: usize,
            levels: *const u16,
            levels_length: usize,
            zeros: *const u8,
            zeros_length: usize,
            kinds: *const u8,
            kinds_length: usize,
            groups: *const u8,
            groups_length: usize,
            numbers: *const u64,
            numbers_length: usize,
            names: *const u8,
            names_length: usize,
            out: *mut u8,
            room: usize,
        ) -> Written;
    }
}

// Safe: the library takes every value, and a Rust slice is an address with the length that belongs to it, shared or not as the library takes it.

pub fn push(permutation: Permutation, place: usize) -> Permuted {
    unsafe { library::tm_push(permutation, place) }
}

pub fn successor(permutation: Permutation) -> Placed {
    unsafe { library::tm_successor(permutation) }
}

pub fn digits(permutation: Permutation) -> Digits {
    unsafe { library::tm_digits(permutation) }
}

pub fn rank(permutation: Permutation) -> Ranked {
    unsafe { library::tm_rank(permutation) }
}

pub fn unrank(n: usize, rank: u64) -> Permuted {
    unsafe { library::tm_unrank(n, rank) }
}

pub fn value(permutation: Permutation, zero: u8) -> Valued {
    unsafe { library::tm_value(permutation, zero) }
}

pub fn permutation_of_value(n: usize, value: u64, zero: u8) -> Permuted {
    unsafe { library::tm_permutation_of_value(n, value, zero) }
}

pub fn read(levels: &[u16]) -> Permuted {
    unsafe { library::tm_read(levels.as_ptr(), levels.len()) }
}

pub fn push_level(levels: &mut [u16], place: usize) -> Pushes {
    unsafe { library::tm_push_level(levels.as_mut_ptr(), levels.len(), place) }
}

pub fn count_up(levels: &mut [u16], k: u32) -> Pushes {
    unsafe { library::tm_count_up(levels.as_mut_ptr(), levels.len(), k) }
}

pub fn rewrite(levels: &mut [u16], target: Permutation, list: &mut [u8]) -> Pushes {
    unsafe { library::tm_rewrite(levels.as_mut_ptr(), levels.len(), target, list.as_mut_ptr(), list.len()) }
}

pub fn within_reach(levels: &[u16], r: usize, list: &mut [u8]) -> Reached {
    unsafe { library::tm_within_reach(levels.as_ptr(), levels.len(), r, list.as_mut_ptr(), list.len()) }
}

pub fn store(levels: &mut [u16], m: u64, symbol: u64) -> Pushes {
    unsafe { library::tm_store(levels.as_mut_ptr(), levels.len(), m, symbol) }
}

pub fn read_symbol(levels: &[u16], m: u64) -> Symbol {
    unsafe { library::tm_read_symbol(levels.as_ptr(), levels.len(), m) }
}

pub fn read_bands(lowest: &[u16], highest: &[u16]) -> Permuted {
    unsafe { library::tm_read_bands(lowest.as_ptr(), lowest.len(), highest.as_ptr(), highest.len()) }
}

pub fn read_symbol_bands(lowest: &[u16], highest: &[u16], m: u64) -> Symbol {
    unsafe { library::tm_read_symbol_bands(lowest.as_ptr(), lowest.len(), highest.as_ptr(), highest.len(), m) }
}

pub fn prefix_uneven(n: usize, weights: &[u16], m: u64, symbol: u64) -> Prefixed {
    unsafe { library::tm_prefix_uneven(n, weights.as_ptr(), weights.len(), m, symbol) }
}

pub fn store_uneven(levels: &mut [u16], weights: &[u16], m: u64, symbol: u64) -> Pushes {
    unsafe { library::tm_store_uneven(levels.as_mut_ptr(), levels.len(), weights.as_ptr(), weights.len(), m, symbol) }
}

pub fn read_uneven(levels: &[u16], weights: &[u16], m: u64) -> Symbol {
    unsafe { library::tm_read_uneven(levels.as_ptr(), levels.len(), weights.as_ptr(), weights.len(), m) }
}

pub fn rearrange(q: usize, z: usize, old: &[u8], new: &[u8], list: &mut [u8]) -> Rearranged {
    unsafe { library::tm_rearrange(q, z, old.as_ptr(), old.len(), new.as_ptr(), new.len(), list.as_mut_ptr(), list.len()) }
}

pub fn bench(sheet: &[u8], text: &mut [u8]) -> Printed {
    unsafe { library::tm_bench(sheet.as_ptr(), sheet.len(), text.as_mut_ptr(), text.len()) }
}

#[allow(clippy::too_many_arguments)] // one list for each field
pub fn write_sheet(sizes: &[usize], levels: &[u16], zeros: &[u8], kinds: &[u8], groups: &[u8], numbers: &[u64], names: &[u8], out: &mut [u8]) -> Written {
    unsafe {
        library::tm_write_sheet(
            sizes.as_ptr(),
            sizes.len(),
            levels.as_ptr(),
            levels.len(),
            zeros.as_ptr(),
            zeros.len(),
            kinds.as_ptr(),
            kinds.len(),
            groups.as_ptr(),
            groups.len(),
            numbers.as_ptr(),
            numbers.len(),
            names.as_ptr(),
            names.len(),
            out.as_mut_ptr(),
            out.len(),
        )
    }
}
