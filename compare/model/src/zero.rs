//! The value of a permutation on a zero: document 02, request 7.

use crate::permutations::{factorial, rank_of_names, unrank, Permutation};
use crate::reason::{check_size, refuse_if, Reason};

/// "A group now carries its zero: old, or new."
#[derive(Clone, Copy, Debug, Default, PartialEq, Eq)]
pub enum Zero {
    /// "The special order that document 01 starts from": the one of rank 0.
    #[default]
    Old,
    /// "The count starts at the order [1,2,...,n]."
    New,
}

impl Zero {
    /// For callers that have no enum: 0 is old and 1 new. Document 02 has no other zero, and its reason is value.
    pub fn from_number(number: u8) -> Result<Zero, Reason> {
        refuse_if(number > 1, Reason::Value)?;
        Ok(if number == 0 { Zero::Old } else { Zero::New })
    }

    /// The names of "its zero order", of n cells.
    pub(crate) fn names(self, n: usize) -> Vec<u8> {
        match self {
            Zero::Old => unrank(n, 0).expect("n is checked already").cells[..n].to_vec(),
            Zero::New => (1..=n as u8).collect(),
        }
    }
}

/// "The rank less the rank of its zero order, modulo n!", "for a zero of any order". Twice 20! fits 64 bits.
pub(crate) fn value_from(zero: &[u8], names: &[u8]) -> u64 {
    let round = factorial(names.len());
    (rank_of_names(names) + round - rank_of_names(zero)) % round
}

/// The permutation of a value below n!: its rank is the value more than that of the zero, modulo n!.
pub(crate) fn permutation_from(zero: &[u8], value: u64) -> Permutation {
    let n = zero.len();
    unrank(n, (value + rank_of_names(zero)) % factorial(n)).expect("n and the rank are in their ranges")
}

/// "Its value": of a permutation on a zero.
pub fn value(permutation: &Permutation, zero: Zero) -> Result<u64, Reason> {
    permutation.names().map(|names| value_from(&zero.names(names.len()), names))
}

/// "Each value from 0 to n! - 1 belongs to exactly one order of n cells": that one. A value outside is refused as such a rank is.
pub fn permutation_of_value(n: usize, value: u64, zero: Zero) -> Result<Permutation, Reason> {
    check_size(n)?;
    refuse_if(value >= factorial(n), Reason::Value)?;
    Ok(permutation_from(&zero.names(n), value))
}

/// `value`, with the zero as a number, judged after the record.
pub fn value_by_number(permutation: &Permutation, zero: u8) -> Result<u64, Reason> {
    permutation.names()?;
    value(permutation, Zero::from_number(zero)?)
}

/// `permutation_of_value`, with the zero as a number, judged after n.
pub fn permutation_by_number(n: usize, value: u64, zero: u8) -> Result<Permutation, Reason> {
    check_size(n)?;
    permutation_of_value(n, value, Zero::from_number(zero)?)
}
