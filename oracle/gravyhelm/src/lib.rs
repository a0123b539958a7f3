//! Gravyhelm for Rust: safe functions over the proved static library. `include/gravyhelm.h` says what each call refuses, in
//! which order, and what it leaves untouched. A refused call hands back the position it was given and writes nothing.
mod raw;
mod types;

use raw::*;
pub use types::*;

/// The numbers given when saying no. 0 is no refusal.
pub mod refusal {
    pub const WRONG_STEP: u8 = 1;
    pub const WRONG_LENGTH: u8 = 2;
    pub const NO_CARD: u8 = 3;
    pub const SAME_CARD: u8 = 4;
    pub const WRONG_HEIGHT: u8 = 5;
    pub const WRONG_PILES: u8 = 6;
    pub const WRONG_OFFSET: u8 = 7;
    pub const OVERLAPPING: u8 = 8;
    pub const UNARRANGED: u8 = 9;
    pub const NO_SUCH_MOVE: u8 = 10;
    pub const NOT_LEGAL: u8 = 11;
    pub const HISTORY_FULL: u8 = 12;
    pub const NOTHING_TO_UNDO: u8 = 13;
    pub const WRONG_COUNT: u8 = 14;
    pub const WRONG_ENTRY: u8 = 15;
    pub const NOT_PROPER: u8 = 16;
    pub const TOO_SHORT: u8 = 17;
}

/// The kinds of move.
pub mod kind {
    pub const DECK_STACK: u8 = 0;
    pub const PILE_STACK: u8 = 1;
    pub const DECK_PILE: u8 = 2;
    pub const STACK_PILE: u8 = 3;
    pub const REVEAL: u8 = 4;
}

/// The bytes that the face-up piles need: 13 for each of seven.
pub const PILE_BYTES: usize = 91;
pub const PILE_ROOM: usize = 13;

// In each call below a slice gives a pointer that is right for its length, and every bit pattern of a position or a cursor is
// data that the call judges itself; a yes or no that comes back is 0 or 1. So no call asks anything of its caller.

/// A fresh deal.
pub fn deal(step: u8, deal: &[u8]) -> Started {
    unsafe { gravyhelm_deal(step, deal.as_ptr(), deal.len()) }
}

/// The position of a deal, a step and a save code.
pub fn resume(step: u8, deal: &[u8], code: u64) -> Started {
    unsafe { gravyhelm_resume(step, deal.as_ptr(), deal.len(), code) }
}

/// The save code.
pub fn save(p: Position) -> Saved {
    unsafe { gravyhelm_save(p) }
}

/// The masks of the legal moves, or, pruned, of those worth trying.
pub fn masks(p: Position, pruned: bool) -> Masked {
    unsafe { gravyhelm_masks(p, u8::from(pruned)) }
}

/// Whether a move is legal.
pub fn test(p: Position, kind: u8, card: u8) -> Told {
    unsafe { gravyhelm_test(p, kind, card) }
}

/// Lists the moves into the front of `out`, and gives the refusal and how many.
pub fn list_into(p: Position, pruned: bool, out: &mut [u16]) -> Listed {
    unsafe { gravyhelm_list_into(p, u8::from(pruned), out.as_mut_ptr(), out.len()) }
}

/// Lists the moves, and hands the written front of `out` back: nothing where it is refused. `list_count` gives the number.
pub fn list(p: Position, pruned: bool, out: &mut [u16]) -> &mut [u16] {
    let n = list_into(p, pruned, out).count;
    &mut out[..n]
}

/// What `list` would answer with a buffer of so many slots. Writes nothing.
pub fn list_count(p: Position, pruned: bool, room: usize) -> Listed {
    unsafe { gravyhelm_list_count(p, u8::from(pruned), room) }
}

/// Whether every foundation is full.
pub fn is_win(p: Position) -> Told {
    unsafe { gravyhelm_is_win(p) }
}

/// Whether at most one card is in the deck and nothing is buried.
pub fn is_sure_win(p: Position) -> Told {
    unsafe { gravyhelm_is_sure_win(p) }
}

/// The foundation heights.
pub fn heights(p: Position) -> Heights {
    unsafe { gravyhelm_heights(p) }
}

/// The deck cards left, and the offset.
pub fn deck(p: Position) -> DeckView {
    unsafe { gravyhelm_deck(p) }
}

/// Whether a card is in the deck, and where.
pub fn find(p: Position, card: u8) -> Located {
    unsafe { gravyhelm_find(p, card) }
}

/// The offset after n deals in a row.
pub fn offset(p: Position, n: u8) -> Offset {
    unsafe { gravyhelm_offset(p, n) }
}

/// Writes the face-up piles into 91 bytes, 13 for each, and gives their lengths.
pub fn piles(p: Position, out: &mut [u8]) -> Piled {
    unsafe { gravyhelm_piles(p, out.as_mut_ptr(), out.len()) }
}

/// Makes a move and writes its entry at the count.
pub fn do_move(p: Position, history: &mut [u16], count: usize, kind: u8, card: u8) -> Moved {
    let m = unsafe { gravyhelm_do_move(p, history.as_mut_ptr(), history.len(), count, kind, card) };
    let turned = match m.kind {
        0 => TurnedUp::Nothing,
        1 => TurnedUp::Emptied,
        _ => TurnedUp::Card(m.card),
    };
    Moved { refusal: m.refusal, position: m.position, count: m.count, byte: m.byte, turned }
}

/// Undoes the last move of the history.
pub fn undo_move(p: Position, history: &[u16], count: usize) -> Undone {
    unsafe { gravyhelm_undo_move(p, history.as_ptr(), history.len(), count) }
}

/// Whether two positions are the same on the ladder.
pub fn ladder(p: Position, q: Position) -> Compared {
    unsafe { gravyhelm_ladder(p, q) }
}

/// A deal on a cursor.
pub fn deal_once(c: Cursor) -> Turned {
    unsafe { gravyhelm_deal_once(c) }
}

/// The same on a lent cursor, which it changes itself: the answer is the number alone.
pub fn deal_once_lent(c: &mut Cursor) -> u8 {
    unsafe { gravyhelm_deal_once_lent(c) }
}
