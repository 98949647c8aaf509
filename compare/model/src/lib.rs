//! A model of document 01, with requests 1 to 4 and 6 to 12 of document 02, in plain Rust: the other side of differential tests, and the plain side of
//! benchmarks.
//!
//! It is written from the sentences of these documents alone, with lists, sorting and searching, and keeps no table; that of sub-problems, which document 001 has, is
//! filled for each job.
//! Every input is legal. A refused job gives its reason and leaves all lent lists as they were.

#![forbid(unsafe_code)]

mod arrangements;
mod bands;
mod levels;
mod permutations;
mod reach;
mod reader;
mod reason;
mod sheet;
mod symbols;
mod text;
mod uneven;
mod writer;
mod zero;

#[cfg(test)]
mod tests;

pub use arrangements::rearrange;
pub use bands::{read_bands, read_symbol_bands};
pub use levels::{count_up, push_level, read, rewrite, Spent};
pub use permutations::{digits, push, rank, rank_by_weights, successor, unrank, NextStep, Permutation};
pub use reach::within_reach;
pub use reader::read_sheet;
pub use reason::Reason;
pub use sheet::{Command, Group, Job, Sheet};
pub use symbols::{read_symbol, store};
pub use text::bench;
pub use uneven::{prefix_uneven, read_uneven, store_uneven};
pub use writer::write_sheet;
pub use zero::{permutation_by_number, permutation_of_value, value, value_by_number, Zero};
