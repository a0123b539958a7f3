//! "The position": where each card lies.
use crate::cards::{card_of, set_of, Set, CARDS};
use crate::types::Position;

pub const PILES: usize = 7;
/// Places of the deal before the deck's.
pub const PILE_CARDS: usize = 28;
pub const DECK_CARDS: usize = 24;

/// "Pile i (0 to 6) takes i+1 cards from its start": place k of pile i
pub fn pile_card(p: &Position, pile: usize, k: usize) -> usize {
    let start: usize = (0..pile).map(|i| i + 1).sum();
    usize::from(p.deal[start + k])
}

/// "the last 24 are the deck"
pub fn stock(p: &Position) -> &[u8] {
    &p.deal[PILE_CARDS..]
}

pub fn count(p: &Position, pile: usize) -> usize {
    usize::from(p.counts[pile])
}

/// "the last of them is the head"
pub fn head(p: &Position, pile: usize) -> Option<usize> {
    match count(p, pile) {
        0 => None,
        n => Some(pile_card(p, pile, n - 1)),
    }
}

/// "the deck cards left"
pub fn deck_left(p: &Position) -> &[u8] {
    &p.deck[..usize::from(p.left)]
}

/// Where each card lies. The deal must be cards, the numbers in range.
pub struct Places {
    pub foundation: Set,
    pub deck: Set,
    pub locked: Set,
    pub heads: Set,
    pub buried: Set,
    pub visible: Set,
    pub free: Set,
}

pub fn places(p: &Position) -> Places {
    let mut s = Places {
        foundation: [false; CARDS],
        deck: [false; CARDS],
        locked: [false; CARDS],
        heads: [false; CARDS],
        buried: [false; CARDS],
        visible: set_of(p.visible),
        free: [false; CARDS],
    };
    for suit in 0..4 {
        for rank in 0..usize::from(p.heights[suit]) {
            s.foundation[card_of(rank, suit)] = true;
        }
    }
    for &card in deck_left(p) {
        s.deck[usize::from(card)] = true;
    }
    for pile in 0..PILES {
        // "The first n_i places of pile i are locked; the last of them is the head, the ones before it are buried."
        for k in 0..count(p, pile) {
            let card = pile_card(p, pile, k);
            s.locked[card] = true;
            if k + 1 == count(p, pile) {
                s.heads[card] = true;
            } else {
                s.buried[card] = true;
            }
        }
    }
    // "Visible but not locked is free."
    for card in 0..CARDS {
        s.free[card] = s.visible[card] && !s.locked[card];
    }
    s
}

/// The visible set that can be worked out: what is in none of foundation, deck, buried.
pub fn worked_out(p: &Position) -> Set {
    let s = places(p);
    let mut visible = [false; CARDS];
    for card in 0..CARDS {
        visible[card] = !s.foundation[card] && !s.deck[card] && !s.buried[card];
    }
    visible
}

/// How many cards of a pair are in a set.
pub fn in_pair(set: &Set, pair: usize) -> usize {
    crate::cards::cards_of_pair(pair).iter().filter(|&&card| set[card]).count()
}

/// "Heads plus free kings"
pub fn heads_and_free_kings(p: &Position, s: &Places) -> usize {
    let heads = (0..PILES).filter(|&pile| count(p, pile) > 0).count();
    let kings = (0..4).filter(|&suit| s.free[card_of(crate::cards::KING, suit)]).count();
    heads + kings
}
