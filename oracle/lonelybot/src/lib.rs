//! The Rust engine lonelybot (repository vuonghy2442/lonelybot, commit 41023bcd7c), as an oracle.
//!
//! card, stack, deck, hidden, moves, state, standard, utils and engine are byte for byte the published files.
//! shuffler, pruning and fmt_shim stand in for what those need and the sources lack, with no behaviour of their own.
//! harness and state/peek are written for the comparison.
#![allow(dead_code)]
#![feature(isolate_most_least_significant_one)]
pub mod card;
pub mod deck;
pub mod engine;
pub mod hidden;
pub mod moves;
pub mod stack;
pub mod standard;
/// state.rs comes in by `include!`, so that a child module can read its private fields.
pub mod state {
    include!("state.rs");
    pub mod peek;
}
mod fmt_shim;
pub mod harness;
pub mod pruning;
pub mod shuffler;
pub mod utils;
