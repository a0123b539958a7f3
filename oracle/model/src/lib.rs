//! Document 01, slowly and plainly: each module renders one heading, sentence by sentence.
//! Sets of cards are arrays of `bool`, searches are loops, and nothing is clever.
//! `calls` has the whole answer of every public call on every input, refusals in the documented order.
pub mod calls;
pub mod cards;
pub mod code;
pub mod dealing;
pub mod legal;
pub mod piles;
pub mod places;
pub mod play;
pub mod proper;
pub mod show;
pub mod types;
pub mod undo;

#[cfg(test)]
mod worked;
