//! "The save code", a fresh deal, and the position that a code stands for.
use crate::cards::{mask_of, CARDS};
use crate::places::{deck_left, places, stock, worked_out, DECK_CARDS, PILES, PILE_CARDS};
use crate::play::slots;
use crate::proper::{are_cards, are_different, arrangement_rules, step_right};
use crate::types::{Position, BLANK};

/// "7 offset above cards left, or not the stored form": "the offset, but the number of cards left if the offset is a multiple
/// of step or equals that number"
pub fn stored_offset(left: u8, step: u8, offset: u8) -> u8 {
    if offset % step == 0 || offset == left {
        left
    } else {
        offset
    }
}

pub fn code(p: &Position) -> u64 {
    // "Bits 0-15: four foundation heights, suit 0 lowest."
    let mut heights = 0;
    for suit in 0..4 {
        heights += u64::from(p.heights[suit]) * 16u64.pow(suit as u32);
    }
    // "Bits 16-31: n0 + 2(n1 + 3(n2 + 4(n3 + 5(n4 + 6(n5 + 7·n6)))))."
    let n = p.counts.map(u64::from);
    let piles = n[0] + 2 * (n[1] + 3 * (n[2] + 4 * (n[3] + 5 * (n[4] + 6 * (n[5] + 7 * n[6])))));
    // "Bits 32-55: deck cards left, by place in the 24."
    let mut deck = 0;
    for place in 0..DECK_CARDS {
        if deck_left(p).contains(&stock(p)[place]) {
            deck += 2u64.pow(place as u32);
        }
    }
    // "Bits 56-63: the offset", in the stored form
    let offset = u64::from(stored_offset(p.left, p.step, p.offset));
    heights + 2u64.pow(16) * piles + 2u64.pow(32) * deck + 2u64.pow(56) * offset
}

pub fn fresh(deal: &[u8; CARDS], step: u8) -> Position {
    let mut p = Position {
        deal: *deal,
        step,
        counts: [1, 2, 3, 4, 5, 6, 7],
        heights: [0; 4],
        deck: slots(&deal[PILE_CARDS..]),
        left: DECK_CARDS as u8,
        offset: 0,
        visible: 0,
    };
    p.visible = mask_of(&worked_out(&p));
    p
}

/// Refusals 1 to 4, "each test finished over the whole input before the next".
pub fn deal_refusal(deal: &[u8], step: u8) -> u8 {
    if !step_right(step) {
        1
    } else if deal.len() != CARDS {
        2
    } else if !are_cards(deal) {
        3
    } else if !are_different(deal) {
        4
    } else {
        0
    }
}

/// The four heights of a code, any of 0 to 15.
fn heights_of(code: u64) -> [u8; 4] {
    [0, 1, 2, 3].map(|suit| (code / 16u64.pow(suit) % 16) as u8)
}

fn pile_field(code: u64) -> u64 {
    code / 2u64.pow(16) % 2u64.pow(16)
}

/// The counts of a pile field below 40320.
fn counts_of(field: u64) -> [u8; PILES] {
    let mut rest = field;
    let mut counts = [0; PILES];
    for pile in 0..PILES {
        let radix = pile as u64 + 2;
        counts[pile] = (rest % radix) as u8;
        rest /= radix;
    }
    counts
}

/// The cards of the last 24 that a code says are left.
fn deck_of(code: u64, deal: &[u8]) -> Vec<u8> {
    (0..DECK_CARDS)
        .filter(|&place| code / 2u64.pow(32 + place as u32) % 2 == 1)
        .map(|place| deal[PILE_CARDS + place])
        .collect()
}

/// "8 foundation overlaps deck, buried or heads"
fn overlaps(p: &Position) -> bool {
    let s = places(p);
    (0..CARDS).any(|card| s.foundation[card] && (s.deck[card] || s.buried[card] || s.heads[card]))
}

/// The position that a code stands for, or the refusal.
pub fn resumed(deal: &[u8], step: u8, code: u64) -> Result<Position, u8> {
    match deal_refusal(deal, step) {
        0 => {}
        refusal => return Err(refusal),
    }
    let heights = heights_of(code);
    if heights.iter().any(|&height| height > 13) {
        return Err(5);
    }
    if pile_field(code) >= 40320 {
        return Err(6);
    }
    let cards = deck_of(code, deal);
    let left = cards.len() as u8;
    let offset = (code / 2u64.pow(56)) as u8;
    if offset > left || stored_offset(left, step, offset) != offset {
        return Err(7);
    }
    let mut p = Position {
        deal: deal.try_into().unwrap(),
        step,
        counts: counts_of(pile_field(code)),
        heights,
        deck: slots(&cards),
        left,
        offset,
        ..BLANK
    };
    if overlaps(&p) {
        return Err(8);
    }
    p.visible = mask_of(&worked_out(&p));
    if !arrangement_rules(&p) {
        return Err(9);
    }
    Ok(p)
}
