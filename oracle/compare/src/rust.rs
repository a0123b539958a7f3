//! Positions to and from the Rust's own state.
use lonelybot::harness::{Extra, Oracle};
use model::types::{Masks, Position, TurnedUp};

/// The heights, pile field, deck places and the offset as it is, packed for the Rust's `decode`.
fn packed(p: &Position) -> u64 {
    let heights = p.heights.iter().rev().fold(0, |code, &h| code << 4 | u64::from(h));
    let piles = (0..7).rev().fold(0, |field, i| field * (i as u64 + 2) + u64::from(p.counts[i]));
    let left = &p.deck[..usize::from(p.left)];
    let deck = (0..24).filter(|&k| left.contains(&p.deal[28 + k])).fold(0, |mask, k| mask | 1u64 << k);
    heights | piles << 16 | deck << 32 | u64::from(p.offset) << 56
}

/// The Rust's state at a proper position.
pub fn at(p: &Position) -> Oracle {
    Oracle::at(p.step, &p.deal, packed(p))
}

/// The position that the Rust's state is; spare deck slots are 0.
pub fn read(o: &Oracle, deal: &[u8; 52], step: u8) -> Position {
    let cards = o.deck();
    let mut deck = [0; 24];
    deck[..cards.len()].copy_from_slice(&cards);
    Position {
        deal: *deal,
        step,
        counts: o.counts(),
        heights: o.heights(),
        deck,
        left: cards.len() as u8,
        offset: o.current_offset(),
        visible: o.visible(),
    }
}

pub fn masks(o: &Oracle, pruned: bool) -> Masks {
    let m = o.masks(pruned);
    Masks {
        reveal: m.reveal,
        pile_stack: m.pile_stack,
        deck_pile: m.deck_pile,
        deck_stack: m.deck_stack,
        stack_pile: m.stack_pile,
    }
}

pub fn turned(extra: Extra) -> TurnedUp {
    match extra {
        Extra::Nothing => TurnedUp::Nothing,
        Extra::Emptied => TurnedUp::Emptied,
        Extra::Card(card) => TurnedUp::Card(card),
    }
}
