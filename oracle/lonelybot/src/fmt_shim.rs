//! Stands in for the formatter, which is not in the sources: moves.rs prints a `Card`.
use crate::card::Card;
use core::fmt;
impl fmt::Display for Card {
    fn fmt(&self, f: &mut fmt::Formatter<'_>) -> fmt::Result {
        write!(f, "{}", self.mask_index())
    }
}
