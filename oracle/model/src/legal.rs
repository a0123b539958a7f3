//! "Which moves are legal", of a proper position.
use crate::cards::{is_king, mask_of, pair, rank, suit, Set, CARDS, PAIRS};
use crate::dealing::available;
use crate::places::{heads_and_free_kings, in_pair, pile_card, places, Places, PILES};
use crate::types::{Masks, Position};

pub const DECK_STACK: u8 = 0;
pub const PILE_STACK: u8 = 1;
pub const DECK_PILE: u8 = 2;
pub const STACK_PILE: u8 = 3;
pub const REVEAL: u8 = 4;

/// "A pair is open when its visible cards outnumber the free cards in the pair four lower; for pairs of aces, when any is
/// visible."
fn is_open(s: &Places, pair: usize) -> bool {
    let visible = in_pair(&s.visible, pair);
    if pair < 2 {
        visible > 0
    } else {
        visible > in_pair(&s.free, pair - 2)
    }
}

/// "A card has room if the pair four higher is open, or it is a king and heads plus free kings < 7."
fn has_room(p: &Position, s: &Places, card: usize) -> bool {
    let higher = pair(card) + 2;
    (higher < PAIRS && is_open(s, higher)) || (is_king(card) && heads_and_free_kings(p, s) < PILES)
}

fn is_next(p: &Position, card: usize) -> bool {
    usize::from(p.heights[suit(card)]) == rank(card)
}

fn is_top(p: &Position, card: usize) -> bool {
    usize::from(p.heights[suit(card)]) == rank(card) + 1
}

fn at_base(p: &Position, card: usize) -> bool {
    (0..PILES).any(|pile| pile_card(p, pile, 0) == card)
}

fn is_legal(p: &Position, s: &Places, available: &Set, kind: u8, card: usize) -> bool {
    match kind {
        // "PileStack: visible, in an open pair, next on its foundation."
        PILE_STACK => s.visible[card] && is_open(s, pair(card)) && is_next(p, card),
        // "DeckStack: available, next on its foundation."
        DECK_STACK => available[card] && is_next(p, card),
        // "DeckPile: available, has room."
        DECK_PILE => available[card] && has_room(p, s, card),
        // "StackPile: top of its foundation, has room."
        STACK_PILE => is_top(p, card) && has_room(p, s, card),
        // "Reveal: a head with room, and not a king at the base of its pile."
        REVEAL => s.heads[card] && has_room(p, s, card) && !(is_king(card) && at_base(p, card)),
        _ => panic!("no kind {kind}"),
    }
}

pub fn legal(p: &Position, kind: u8, card: u8) -> bool {
    is_legal(p, &places(p), &available(p), kind, usize::from(card))
}

/// The unpruned masks: the cards of each kind's legal moves.
pub fn unpruned(p: &Position) -> Masks {
    let s = places(p);
    let available = available(p);
    let mask = |kind| {
        let mut set = [false; CARDS];
        for card in 0..CARDS {
            set[card] = is_legal(p, &s, &available, kind, card);
        }
        mask_of(&set)
    };
    Masks {
        reveal: mask(REVEAL),
        pile_stack: mask(PILE_STACK),
        deck_pile: mask(DECK_PILE),
        deck_stack: mask(DECK_STACK),
        stack_pile: mask(STACK_PILE),
    }
}

/// "The listing is Reveal, PileStack, DeckPile, DeckStack, StackPile, ascending by card in each; a listed move is
/// kind·64 + card"
pub fn listing(masks: &Masks) -> Vec<u16> {
    let groups = [
        (REVEAL, masks.reveal),
        (PILE_STACK, masks.pile_stack),
        (DECK_PILE, masks.deck_pile),
        (DECK_STACK, masks.deck_stack),
        (STACK_PILE, masks.stack_pile),
    ];
    let mut listed = vec![];
    for (kind, mask) in groups {
        for card in 0..CARDS {
            if crate::cards::set_of(mask)[card] {
                listed.push(u16::from(kind) * 64 + card as u16);
            }
        }
    }
    listed
}
