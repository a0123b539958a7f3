//! Reads private fields of `Solitaire`. No behaviour of its own.
use super::*;

pub fn visible(s: &Solitaire) -> u64 {
    s.visible_mask
}

pub fn deck_mut(s: &mut Solitaire) -> &mut Deck {
    &mut s.deck
}
