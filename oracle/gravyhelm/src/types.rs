//! The plain data that crosses: `include/gravyhelm.h` has the same records, field by field, and says what each number means.

/// A position. Nothing of it is trusted: a call that is given one judges it, and refuses with `NOT_PROPER`.
#[repr(C)]
#[derive(Clone, Copy, PartialEq, Eq, Debug)]
pub struct Position {
    pub deal: [u8; 52],
    pub step: u8,
    pub counts: [u8; 7],
    pub heights: [u8; 4],
    pub deck: [u8; 24],
    pub left: u8,
    pub offset: u8,
    pub visible: u64,
}

/// The five masks, in the order of the listing.
#[repr(C)]
#[derive(Clone, Copy, PartialEq, Eq, Debug)]
pub struct Masks {
    pub reveal: u64,
    pub pile_stack: u64,
    pub deck_pile: u64,
    pub deck_stack: u64,
    pub stack_pile: u64,
}

/// A deck's length, step and offset alone.
#[repr(C)]
#[derive(Clone, Copy, PartialEq, Eq, Debug)]
pub struct Cursor {
    pub len: u8,
    pub step: u8,
    pub offset: u8,
}

/// What a move turned up.
#[derive(Clone, Copy, PartialEq, Eq, Debug)]
pub enum TurnedUp {
    Nothing,
    Emptied,
    Card(u8),
}

// The answers. `refusal` is 0 where the call is accepted. `position` is the given one, and for a deal, a resume, a move and an
// undo that is accepted the new one.

/// Of a fresh deal and of a resume. Refused, the position is the blank one: all numbers 0.
#[repr(C)]
#[derive(Clone, Copy, PartialEq, Eq, Debug)]
pub struct Started {
    pub refusal: u8,
    pub position: Position,
}

/// Of a save.
#[repr(C)]
#[derive(Clone, Copy, PartialEq, Eq, Debug)]
pub struct Saved {
    pub refusal: u8,
    pub position: Position,
    pub code: u64,
}

/// Of the masks, pruned or not.
#[repr(C)]
#[derive(Clone, Copy, PartialEq, Eq, Debug)]
pub struct Masked {
    pub refusal: u8,
    pub position: Position,
    pub masks: Masks,
}

/// Of the listing: how many moves.
#[repr(C)]
#[derive(Clone, Copy, PartialEq, Eq, Debug)]
pub struct Listed {
    pub refusal: u8,
    pub position: Position,
    pub count: usize,
}

/// Of a question: the move test, the win questions.
#[repr(C)]
#[derive(Clone, Copy, PartialEq, Eq, Debug)]
pub struct Told {
    pub refusal: u8,
    pub position: Position,
    pub yes: bool,
}

/// Of the ladder question.
#[repr(C)]
#[derive(Clone, Copy, PartialEq, Eq, Debug)]
pub struct Compared {
    pub refusal: u8,
    pub first: Position,
    pub second: Position,
    pub same: bool,
}

/// Of the face-up piles: seven lengths.
#[repr(C)]
#[derive(Clone, Copy, PartialEq, Eq, Debug)]
pub struct Piled {
    pub refusal: u8,
    pub position: Position,
    pub lengths: [u8; 7],
}

/// Of `find`.
#[repr(C)]
#[derive(Clone, Copy, PartialEq, Eq, Debug)]
pub struct Located {
    pub refusal: u8,
    pub position: Position,
    pub found: bool,
    pub place: u8,
}

/// Of `offset(n)`.
#[repr(C)]
#[derive(Clone, Copy, PartialEq, Eq, Debug)]
pub struct Offset {
    pub refusal: u8,
    pub position: Position,
    pub offset: u8,
}

/// Of the foundation heights.
#[repr(C)]
#[derive(Clone, Copy, PartialEq, Eq, Debug)]
pub struct Heights {
    pub refusal: u8,
    pub position: Position,
    pub heights: [u8; 4],
}

/// Of the deck: its cards left, the others 0, their number, the offset.
#[repr(C)]
#[derive(Clone, Copy, PartialEq, Eq, Debug)]
pub struct DeckView {
    pub refusal: u8,
    pub position: Position,
    pub cards: [u8; 24],
    pub left: u8,
    pub offset: u8,
}

/// Of a move.
#[derive(Clone, Copy, PartialEq, Eq, Debug)]
pub struct Moved {
    pub refusal: u8,
    pub position: Position,
    pub count: usize,
    pub byte: u8,
    pub turned: TurnedUp,
}

/// Of an undo.
#[repr(C)]
#[derive(Clone, Copy, PartialEq, Eq, Debug)]
pub struct Undone {
    pub refusal: u8,
    pub position: Position,
    pub count: usize,
}

/// Of `deal_once`.
#[repr(C)]
#[derive(Clone, Copy, PartialEq, Eq, Debug)]
pub struct Turned {
    pub refusal: u8,
    pub cursor: Cursor,
}

// The sizes that include/gravyhelm.h names.
const _: () = assert!(size_of::<Position>() == 104);
const _: () = assert!(size_of::<Masks>() == 40);
const _: () = assert!(size_of::<Cursor>() == 3);
