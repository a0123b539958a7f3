//! Runs implementations of document 01's public calls side by side.
//! `engine` has the trait that each side implements, `sides` the sides, `ours` the proved engine, `make` and `limits` the inputs, `tally` the counts and differences.
//! `rows` has the format of answers in a file, `writer` and `player` write and replay it.
pub mod engine;
pub mod limits;
pub mod make;
#[cfg(feature = "ours")]
pub mod ours;
pub mod player;
pub mod rng;
pub mod rows;
pub mod rust;
pub mod sides;
pub mod tally;
pub mod walk;
pub mod writer;
