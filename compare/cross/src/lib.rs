//! Support for differential tests: the exported functions beside the independent model.
#![forbid(unsafe_code)]

pub mod cases;
mod cross;
mod held;
mod lent;
mod random;
pub mod sheet;
pub mod weights;

pub use cross::{spent, twin, Cross};
pub use held::{held, zero, Rows};
pub use lent::{fill, Lent};
pub use random::Random;
