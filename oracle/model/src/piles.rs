//! "Face-up piles", of a proper position.
use crate::cards::{card_of, partner, rank, KING};
use crate::places::{head, places, Places, PILES};
use crate::types::Position;

pub const PILE_ROOM: usize = 13;
pub const PILES_ROOM: usize = PILES * PILE_ROOM;

/// "Under a card whose pair partner is also visible goes only the free card exactly four lower; otherwise that card or,
/// failing it, its partner."
fn under(s: &Places, card: usize) -> Option<usize> {
    if rank(card) == 0 {
        return None;
    }
    let lower = card - 4;
    if s.free[lower] {
        Some(lower)
    } else if !s.visible[partner(card)] && s.free[partner(lower)] {
        Some(partner(lower))
    } else {
        None
    }
}

/// "a pile with a head starts there, other piles take free kings by suit"
pub fn piles(p: &Position) -> [Vec<u8>; PILES] {
    let s = places(p);
    let mut kings = (0..4).map(|suit| card_of(KING, suit)).filter(|&king| s.free[king]);
    let mut piles: [Vec<u8>; PILES] = Default::default();
    for pile in 0..PILES {
        let mut next = head(p, pile).or_else(|| kings.next());
        while let Some(card) = next {
            piles[pile].push(card as u8);
            next = under(&s, card);
        }
    }
    piles
}
