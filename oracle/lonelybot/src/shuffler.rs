//! Stands in for src/shuffler.rs, which needs crates that Debian does not have: the one type that the others use.
use crate::card::{Card, N_CARDS};
pub type CardDeck = [Card; N_CARDS as usize];
