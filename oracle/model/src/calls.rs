//! The whole answer of every public call on every input. "Each returns the number and the given position, a move or undo also
//! the given history count, and 0, no or none for all else; lent memory keeps its bytes."
use crate::code::{code, deal_refusal, fresh, resumed};
use crate::dealing;
use crate::legal::{legal, listing, unpruned};
use crate::piles::{piles, PILES_ROOM, PILE_ROOM};
use crate::places::{count, deck_left, stock, PILES};
use crate::play::{after, slots, turned_up, undo_byte};
use crate::proper::{proper, step_right};
use crate::types::*;
use crate::undo::{earlier, entry, is_kind_and_card};

/// "A fresh deal or resume has no given position and returns the blank one".
pub fn deal(deal: &[u8], step: u8) -> Started {
    match deal_refusal(deal, step) {
        0 => Started { refusal: 0, position: fresh(deal.try_into().unwrap(), step) },
        refusal => Started { refusal, position: BLANK },
    }
}

pub fn resume(deal: &[u8], step: u8, code: u64) -> Started {
    match resumed(deal, step, code) {
        Ok(position) => Started { refusal: 0, position },
        Err(refusal) => Started { refusal, position: BLANK },
    }
}

/// "Save, masks, yes/no questions: 16"
fn improper(p: &Position) -> u8 {
    if proper(p) {
        0
    } else {
        16
    }
}

pub fn save(p: &Position) -> Saved {
    let refusal = improper(p);
    let code = if refusal == 0 { code(p) } else { 0 };
    Saved { refusal, position: *p, code }
}

pub fn masks(p: &Position) -> Masked {
    let refusal = improper(p);
    let masks = if refusal == 0 { unpruned(p) } else { Masks::default() };
    Masked { refusal, position: *p, masks }
}

/// "the move test: 16, 10"
pub fn test(p: &Position, kind: u8, card: u8) -> Told {
    let refusal = if !proper(p) {
        16
    } else if !is_kind_and_card(kind, card) {
        10
    } else {
        0
    };
    Told { refusal, position: *p, yes: refusal == 0 && legal(p, kind, card) }
}

/// "Listings: 16, 17; the move listing needs as many slots as moves": the twin, for a buffer of so many slots
pub fn list_count(p: &Position, room: usize) -> Listed {
    if !proper(p) {
        return Listed { refusal: 16, position: *p, count: 0 };
    }
    let count = listing(&unpruned(p)).len();
    if room < count {
        return Listed { refusal: 17, position: *p, count: 0 };
    }
    Listed { refusal: 0, position: *p, count }
}

/// "The listing hands back the written front of the caller's buffer, empty when refused": the length of that front.
/// "later slots stay"
pub fn list(p: &Position, buffer: &mut [u16]) -> usize {
    let told = list_count(p, buffer.len());
    if told.refusal == 0 {
        buffer[..told.count].copy_from_slice(&listing(&unpruned(p)));
    }
    told.count
}

/// Every foundation is full.
pub fn is_win(p: &Position) -> Told {
    let refusal = improper(p);
    Told { refusal, position: *p, yes: refusal == 0 && p.heights == [13; 4] }
}

/// At most one card in the deck and nothing buried (source 000).
pub fn is_sure_win(p: &Position) -> Told {
    let refusal = improper(p);
    let nothing_buried = (0..PILES).all(|pile| count(p, pile) <= 1);
    Told { refusal, position: *p, yes: refusal == 0 && p.left <= 1 && nothing_buried }
}

pub fn heights(p: &Position) -> Heights {
    let refusal = improper(p);
    let heights = if refusal == 0 { p.heights } else { [0; 4] };
    Heights { refusal, position: *p, heights }
}

/// The cards left, slots past them 0.
pub fn deck(p: &Position) -> DeckView {
    match improper(p) {
        0 => DeckView { refusal: 0, position: *p, cards: slots(deck_left(p)), left: p.left, offset: p.offset },
        refusal => DeckView { refusal, position: *p, cards: [0; 24], left: 0, offset: 0 },
    }
}

/// "`find`: 16, then 10 for a card above 51". "`find_card` of a non-deck card: answer not found, place 0". For one of the
/// deck's 24 the place is the number of cards left that lie before it (source 001), found or not.
pub fn find(p: &Position, card: u8) -> Located {
    let refused = |refusal| Located { refusal, position: *p, found: false, place: 0 };
    if !proper(p) {
        return refused(16);
    }
    if card > 51 {
        return refused(10);
    }
    let is_left = |c: &u8| deck_left(p).contains(c);
    let place = match stock(p).iter().position(|&c| c == card) {
        None => 0,
        Some(at) => stock(p)[..at].iter().filter(|c| is_left(c)).count() as u8,
    };
    Located { refusal: 0, position: *p, found: is_left(&card), place }
}

/// "`offset(n)`, n 0 to 255, equals n deals in a row."
pub fn offset(p: &Position, n: u8) -> Offset {
    let refusal = improper(p);
    let offset = match refusal {
        0 => dealing::deals(usize::from(p.left), usize::from(p.step), usize::from(p.offset), usize::from(n)) as u8,
        _ => 0,
    };
    Offset { refusal, position: *p, offset }
}

/// "The pile buffer is 91 bytes: pile p starts at 13p, unused bytes become 255, later bytes stay. Seven lengths come back."
pub fn face_up(p: &Position, buffer: &mut [u8]) -> Piled {
    let refused = |refusal| Piled { refusal, position: *p, lengths: [0; PILES] };
    if !proper(p) {
        return refused(16);
    }
    if buffer.len() < PILES_ROOM {
        return refused(17);
    }
    let piles = piles(p);
    let mut lengths = [0; PILES];
    for pile in 0..PILES {
        let part = &mut buffer[PILE_ROOM * pile..PILE_ROOM * pile + PILE_ROOM];
        part.fill(255);
        part[..piles[pile].len()].copy_from_slice(&piles[pile]);
        lengths[pile] = piles[pile].len() as u8;
    }
    Piled { refusal: 0, position: *p, lengths }
}

/// "Move: 16, 14, 10, 11, 12." "A move writes the entry at the count."
pub fn do_move(p: &Position, history: &mut [u16], count: usize, kind: u8, card: u8) -> Moved {
    let refused = |refusal| Moved { refusal, position: *p, count, byte: 0, turned: TurnedUp::Nothing };
    if !proper(p) {
        return refused(16);
    }
    if count > history.len() {
        return refused(14);
    }
    if !is_kind_and_card(kind, card) {
        return refused(10);
    }
    if !legal(p, kind, card) {
        return refused(11);
    }
    if count == history.len() {
        return refused(12);
    }
    let byte = undo_byte(p, kind, card);
    history[count] = entry(byte, kind, card);
    Moved { refusal: 0, position: after(p, kind, card), count: count + 1, byte, turned: turned_up(p, kind, card) }
}

/// "Undo: 16, 14, 13, 15." "Undo takes the last, lowers the count and leaves the slice."
pub fn undo(p: &Position, history: &[u16], count: usize) -> Undone {
    let refused = |refusal| Undone { refusal, position: *p, count };
    if !proper(p) {
        return refused(16);
    }
    if count > history.len() {
        return refused(14);
    }
    if count == 0 {
        return refused(13);
    }
    match earlier(p, history[count - 1]) {
        None => refused(15),
        Some(position) => Undone { refusal: 0, position, count: count - 1 },
    }
}

/// "Two positions of one deal and step are the same on the ladder when their codes are equal; positions of different deals or
/// steps are never the same." "16, on the ladder for either position"
pub fn ladder(p: &Position, q: &Position) -> Ranked {
    let refusal = if proper(p) && proper(q) { 0 } else { 16 };
    let same = refusal == 0 && p.deal == q.deal && p.step == q.step && code(p) == code(q);
    Ranked { refusal, first: *p, second: *q, same }
}

/// "A cursor, given or lent: 1, then 16 if its length is above 24 or its offset above its length; it is then unchanged."
pub fn deal_once(cursor: Cursor) -> Turned {
    if !step_right(cursor.step) {
        return Turned { refusal: 1, cursor };
    }
    if cursor.len > 24 || cursor.offset > cursor.len {
        return Turned { refusal: 16, cursor };
    }
    let offset = dealing::deal_once(usize::from(cursor.len), usize::from(cursor.step), usize::from(cursor.offset));
    Turned { refusal: 0, cursor: Cursor { offset: offset as u8, ..cursor } }
}

/// The same on a lent cursor: the refusal.
pub fn deal_once_lent(cursor: &mut Cursor) -> u8 {
    let turned = deal_once(*cursor);
    *cursor = turned.cursor;
    turned.refusal
}
