//! The arms of the functions in the crate's `src/s1/interval.rs`, told from their own conditions.
//!
//! A chain of `&&` or `||` has an arm for each condition that ends it. Arithmetic has an arm for a
//! rounded result, so that the comparison really sees rounding. A choice between two distances has an
//! arm for a tie. Nothing here calls a function of the crate.

mod operands;
mod results;
mod tests;

pub use results::*;
pub use tests::*;
