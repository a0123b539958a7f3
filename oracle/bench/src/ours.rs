//! The exported inner calls, and the position as they take it.

// The records that cross are those of the Rust wrappers; their library is not linked here.
#[allow(dead_code)]
#[path = "../../gravyhelm/src/types.rs"]
mod types;
pub use types::{Masks, Position, Started};

#[repr(C)]
#[derive(Clone, Copy)]
pub struct Step {
    pub position: Position,
    pub byte: u8,
}

// A slice that is lent goes as its address and its length.
extern "C" {
    pub fn inside_nothing(p: Position) -> u64;
    pub fn inside_is_proper(p: Position) -> bool;
    pub fn inside_masks(p: Position) -> Masks;
    pub fn inside_pruned(p: Position) -> Masks;
    pub fn inside_is_valid_move(p: Position, kind: u8, card: u8) -> bool;
    pub fn inside_list(m: Masks, out: *mut u16, len: usize) -> usize;
    pub fn inside_piles(p: Position, out: *mut u8, len: usize) -> u8;
    pub fn inside_offset(p: Position, n: u8) -> u8;
    pub fn inside_find(p: Position, card: u8) -> u8;
    pub fn inside_save(p: Position) -> u64;
    pub fn inside_do_move(p: Position, kind: u8, card: u8) -> Step;
    pub fn inside_undo_move(p: Position, byte: u8, kind: u8, card: u8) -> Position;
    pub fn inside_resume(step: u8, cards: *const u8, len: usize, code: u64) -> Started;
}

impl From<&model::types::Position> for Position {
    fn from(p: &model::types::Position) -> Self {
        let model::types::Position { deal, step, counts, heights, deck, left, offset, visible } = *p;
        Self { deal, step, counts, heights, deck, left, offset, visible }
    }
}

impl From<&Position> for model::types::Position {
    fn from(p: &Position) -> Self {
        let Position { deal, step, counts, heights, deck, left, offset, visible } = *p;
        Self { deal, step, counts, heights, deck, left, offset, visible }
    }
}
