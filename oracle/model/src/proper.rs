//! "A position is proper when all of this holds".
use crate::cards::{CARDS, PAIRS};
use crate::places::{deck_left, head, heads_and_free_kings, in_pair, places, stock, Places, DECK_CARDS, PILES};
use crate::types::Position;

/// "a card byte above 51" is nowhere
pub fn are_cards(deal: &[u8]) -> bool {
    deal.iter().all(|&card| usize::from(card) < CARDS)
}

/// No card stands twice.
pub fn are_different(deal: &[u8]) -> bool {
    for i in 0..deal.len() {
        for j in 0..i {
            if deal[i] == deal[j] {
                return false;
            }
        }
    }
    true
}

/// "step 1 to 24"
pub fn step_right(step: u8) -> bool {
    (1..=24).contains(&step)
}

/// "every number is in the range given above"; a visible mask has bits of cards alone
fn numbers_right(p: &Position) -> bool {
    step_right(p.step)
        && (0..PILES).all(|pile| usize::from(p.counts[pile]) <= pile + 1)
        && p.heights.iter().all(|&height| height <= 13)
        && usize::from(p.left) <= DECK_CARDS
        && p.offset <= p.left
        && p.visible < 2u64.pow(CARDS as u32)
}

/// "the deck cards left (in deal order)": each is one of the last 24, behind the one before it
fn deck_right(p: &Position) -> bool {
    let mut from = 0;
    for card in deck_left(p) {
        match stock(p)[from..].iter().position(|c| c == card) {
            Some(at) => from += at + 1,
            None => return false,
        }
    }
    true
}

/// "Every card is in exactly one of foundation, deck, buried, visible"
fn each_once(s: &Places) -> bool {
    (0..CARDS).all(|card| {
        let homes = [s.foundation[card], s.deck[card], s.buried[card], s.visible[card]];
        homes.iter().filter(|&&there| there).count() == 1
    })
}

/// "every head is visible"
fn heads_visible(p: &Position, s: &Places) -> bool {
    (0..PILES).all(|pile| head(p, pile).is_none_or(|card| s.visible[card]))
}

/// "For each pair below kings: free cards in it ≤ visible cards in the pair four higher."
pub fn pair_rule(s: &Places) -> bool {
    (0..PAIRS - 2).all(|pair| in_pair(&s.free, pair) <= in_pair(&s.visible, pair + 2))
}

/// The pair rule, and "Heads plus free kings ≤ 7."
pub fn arrangement_rules(p: &Position) -> bool {
    let s = places(p);
    pair_rule(&s) && heads_and_free_kings(p, &s) <= PILES
}

pub fn proper(p: &Position) -> bool {
    if !(are_cards(&p.deal) && are_different(&p.deal) && numbers_right(p) && deck_right(p)) {
        return false;
    }
    let s = places(p);
    each_once(&s) && heads_visible(p, &s) && arrangement_rules(p)
}
