//! The exported functions, as `include/gravyhelm.h` declares them.
use crate::types::*;

/// A move's answer as it crosses: the case of the card turned up, and the card.
#[repr(C)]
pub struct RawMoved {
    pub refusal: u8,
    pub position: Position,
    pub count: usize,
    pub byte: u8,
    pub kind: u8,
    pub card: u8,
}

extern "C" {
    pub fn gravyhelm_deal(step: u8, deal: *const u8, length: usize) -> Started;
    pub fn gravyhelm_resume(step: u8, deal: *const u8, length: usize, code: u64) -> Started;
    pub fn gravyhelm_save(p: Position) -> Saved;
    pub fn gravyhelm_masks(p: Position, pruned: u8) -> Masked;
    pub fn gravyhelm_test(p: Position, kind: u8, card: u8) -> Told;
    pub fn gravyhelm_list_into(p: Position, pruned: u8, out: *mut u16, length: usize) -> Listed;
    pub fn gravyhelm_list_count(p: Position, pruned: u8, room: usize) -> Listed;
    pub fn gravyhelm_is_win(p: Position) -> Told;
    pub fn gravyhelm_is_sure_win(p: Position) -> Told;
    pub fn gravyhelm_heights(p: Position) -> Heights;
    pub fn gravyhelm_deck(p: Position) -> DeckView;
    pub fn gravyhelm_find(p: Position, card: u8) -> Located;
    pub fn gravyhelm_offset(p: Position, n: u8) -> Offset;
    pub fn gravyhelm_piles(p: Position, out: *mut u8, length: usize) -> Piled;
    pub fn gravyhelm_do_move(
        p: Position,
        history: *mut u16,
        length: usize,
        count: usize,
        kind: u8,
        card: u8,
    ) -> RawMoved;
    pub fn gravyhelm_undo_move(p: Position, history: *const u16, length: usize, count: usize) -> Undone;
    pub fn gravyhelm_ladder(p: Position, q: Position) -> Compared;
    pub fn gravyhelm_deal_once(c: Cursor) -> Turned;
    pub fn gravyhelm_deal_once_lent(c: *mut Cursor) -> u8;
}
