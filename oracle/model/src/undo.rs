//! "History", and refusal 15.
use crate::cards::{mask_of, suit};
use crate::legal::{legal, DECK_PILE, DECK_STACK, PILE_STACK, REVEAL, STACK_PILE};
use crate::places::{count, deck_left, pile_card, stock, worked_out, DECK_CARDS, PILES};
use crate::play::{after, slots, undo_byte};
use crate::proper::proper;
use crate::types::Position;

/// "An entry is byte·512 + kind·64 + card"
pub fn entry(byte: u8, kind: u8, card: u8) -> u16 {
    u16::from(byte) * 512 + u16::from(kind) * 64 + u16::from(card)
}

/// The byte, kind (0 to 7) and card (0 to 63) of an entry.
pub fn parts(entry: u16) -> (u8, u8, u8) {
    ((entry / 512) as u8, (entry / 64 % 8) as u8, (entry % 64) as u8)
}

/// "kind above 4 or card above 51" is refused
pub fn is_kind_and_card(kind: u8, card: u8) -> bool {
    kind <= 4 && card <= 51
}

/// "Spare slots of arrays don't count."
pub fn same(p: &Position, q: &Position) -> bool {
    let without_spare = |p: &Position| Position { deck: slots(deck_left(p)), ..*p };
    without_spare(p) == without_spare(q)
}

/// The deck with this card put back in its place of the deal.
fn put_back(q: &mut Position, card: u8) -> Option<()> {
    if !stock(q).contains(&card) || deck_left(q).contains(&card) {
        return None;
    }
    let cards: Vec<u8> = stock(q).iter().copied().filter(|c| *c == card || deck_left(q).contains(c)).collect();
    q.left += 1;
    q.deck = slots(&cards);
    Some(())
}

/// The pile whose first place that is not locked has this card gets it back as its head.
fn lock(q: &mut Position, card: u8) -> Option<()> {
    let fits = |pile: &usize| count(q, *pile) <= *pile && pile_card(q, *pile, count(q, *pile)) == usize::from(card);
    let pile = (0..PILES).find(fits)?;
    q.counts[pile] += 1;
    Some(())
}

/// The one position that could have come before by this byte, kind and card, if there is any: the move's changes taken back,
/// and the visible mask worked out.
fn candidate(p: &Position, byte: u8, kind: u8, card: u8) -> Option<Position> {
    let mut q = *p;
    let height = &mut q.heights[suit(usize::from(card))];
    match kind {
        DECK_STACK | PILE_STACK => *height = height.checked_sub(1)?,
        STACK_PILE if *height == 13 => return None,
        STACK_PILE => *height += 1,
        _ => {}
    }
    match kind {
        DECK_STACK | DECK_PILE => {
            put_back(&mut q, card)?;
            q.offset = byte;
        }
        REVEAL => lock(&mut q, card)?,
        PILE_STACK if byte > 0 => lock(&mut q, card)?,
        _ => {}
    }
    q.visible = mask_of(&worked_out(&q));
    Some(q)
}

/// q is a "proper earlier position of this deal and step [that] reaches this one by it, that is by a legal move that writes
/// this entry".
fn is_earlier(q: &Position, p: &Position, last: u16) -> bool {
    let (_, kind, card) = parts(last);
    q.deal == p.deal
        && q.step == p.step
        && proper(q)
        && legal(q, kind, card)
        && entry(undo_byte(q, kind, card), kind, card) == last
        && same(&after(q, kind, card), p)
}

/// The position that undo of this entry gives; none is refusal 15.
pub fn earlier(p: &Position, last: u16) -> Option<Position> {
    let (byte, kind, card) = parts(last);
    if !is_kind_and_card(kind, card) {
        return None;
    }
    candidate(p, byte, kind, card).filter(|q| is_earlier(q, p, last))
}

/// The same by a blind search: every earlier position of p by this kind and card, with the entry that the move writes. Tried is
/// each position that differs from p by at most one step of one foundation, one count, one more deck card, the offset and the
/// visible mask.
pub fn earlier_by_search(p: &Position, kind: u8, card: u8) -> Vec<(u16, Position)> {
    let mut found = vec![];
    for q in nearby(p) {
        for offset in 0..=q.left {
            let q = Position { offset, ..q };
            if legal(&q, kind, card) && same(&after(&q, kind, card), p) {
                found.push((entry(undo_byte(&q, kind, card), kind, card), q));
            }
        }
    }
    found
}

/// The proper positions near p, as the search tries them, with offset 0.
fn nearby(p: &Position) -> Vec<Position> {
    let mut tried = vec![Position { offset: 0, ..*p }];
    for s in 0..4 {
        for height in [p.heights[s].checked_sub(1), p.heights[s].checked_add(1)].into_iter().flatten() {
            let mut q = tried[0];
            q.heights[s] = height;
            tried.push(q);
        }
    }
    for q in tried.clone() {
        for pile in 0..PILES {
            let mut q = q;
            q.counts[pile] += 1;
            tried.push(q);
        }
    }
    for q in tried.clone() {
        for k in 0..DECK_CARDS {
            let mut q = q;
            if put_back(&mut q, p.deal[28 + k]).is_some() {
                tried.push(q);
            }
        }
    }
    let in_range =
        |q: &Position| q.heights.iter().all(|&h| h <= 13) && (0..PILES).all(|pile| count(q, pile) <= pile + 1);
    tried.retain(in_range);
    for q in &mut tried {
        q.visible = mask_of(&worked_out(q));
    }
    tried.retain(proper);
    tried
}
