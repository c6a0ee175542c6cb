//! Laws of one run against another, on any bytes, and a mutator that plays legal moves.
//!
//! [`check`] panics with the name of a law that does not hold. `bin/fuzz` calls it by libFuzzer,
//! and `src/main.rs` for each file of a corpus.

mod dice;
mod laws;
#[cfg(feature = "libfuzzer")]
mod libfuzzer;
pub mod mutator;

pub use laws::check;
