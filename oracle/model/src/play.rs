//! Making a legal move.
use crate::cards::{mask_of, suit};
use crate::legal::{DECK_PILE, DECK_STACK, PILE_STACK, REVEAL, STACK_PILE};
use crate::places::{count, deck_left, head, pile_card, worked_out, DECK_CARDS, PILES};
use crate::types::{Position, TurnedUp};

/// A deck's 24 slots with these cards in front; spare slots are 0.
pub fn slots(cards: &[u8]) -> [u8; DECK_CARDS] {
    let mut deck = [0; DECK_CARDS];
    deck[..cards.len()].copy_from_slice(cards);
    deck
}

/// The pile whose head is this card.
fn pile_with_head(p: &Position, card: u8) -> Option<usize> {
    (0..PILES).find(|&pile| head(p, pile) == Some(usize::from(card)))
}

/// The card leaves the deck; what was dealt before it is the waste.
fn draw(p: &mut Position, card: u8) {
    let mut cards = deck_left(p).to_vec();
    let place = cards.iter().position(|&c| c == card).unwrap();
    cards.remove(place);
    p.deck = slots(&cards);
    p.left -= 1;
    p.offset = place as u8;
}

/// The position after a legal move. A card that leaves the deck, a foundation or a buried place, and goes to none of them, is visible.
pub fn after(p: &Position, kind: u8, card: u8) -> Position {
    let mut q = *p;
    let suit = suit(usize::from(card));
    match kind {
        DECK_STACK => {
            draw(&mut q, card);
            q.heights[suit] += 1;
        }
        PILE_STACK => {
            q.heights[suit] += 1;
            if let Some(pile) = pile_with_head(p, card) {
                q.counts[pile] -= 1;
            }
        }
        DECK_PILE => draw(&mut q, card),
        STACK_PILE => q.heights[suit] -= 1,
        REVEAL => q.counts[pile_with_head(p, card).unwrap()] -= 1,
        _ => panic!("no kind {kind}"),
    }
    q.visible = mask_of(&worked_out(&q));
    q
}

/// "Undo bytes: DeckStack and DeckPile the old offset; PileStack 1 if the card was a head, else 0; others 0."
pub fn undo_byte(p: &Position, kind: u8, card: u8) -> u8 {
    match kind {
        DECK_STACK | DECK_PILE => p.offset,
        PILE_STACK => u8::from(pile_with_head(p, card).is_some()),
        _ => 0,
    }
}

/// "Removing a head turns up the card under it."
pub fn turned_up(p: &Position, kind: u8, card: u8) -> TurnedUp {
    let removed = match kind {
        PILE_STACK | REVEAL => pile_with_head(p, card),
        _ => None,
    };
    match removed {
        None => TurnedUp::Nothing,
        Some(pile) if count(p, pile) == 1 => TurnedUp::Emptied,
        Some(pile) => TurnedUp::Card(pile_card(p, pile, count(p, pile) - 2) as u8),
    }
}
