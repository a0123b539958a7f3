//! The position and the answers, as plain numbers.

/// What document 01 says that a position holds. Any bytes at all can stand here; `proper` judges them.
#[derive(Clone, Copy, PartialEq, Eq)]
pub struct Position {
    pub deal: [u8; 52],
    pub step: u8,
    pub counts: [u8; 7],
    pub heights: [u8; 4],
    /// The first `left` slots are the deck cards left, the others are spare.
    pub deck: [u8; 24],
    pub left: u8,
    pub offset: u8,
    pub visible: u64,
}

/// Short, with the cards in hexadecimal.
impl core::fmt::Debug for Position {
    fn fmt(&self, f: &mut core::fmt::Formatter<'_>) -> core::fmt::Result {
        if *self == BLANK {
            return write!(f, "blank");
        }
        let cards = |cards: &[u8]| cards.iter().map(|card| format!("{card:02x}")).collect::<String>();
        let numbered = (0..52).all(|k| usize::from(self.deal[k]) == k);
        let deal = if numbered { "W".to_string() } else { cards(&self.deal) };
        write!(
            f,
            "[deal {deal} step {} counts {:?} heights {:?} deck {} left {} offset {} visible {:#x}]",
            self.step,
            self.counts.map(i32::from),
            self.heights.map(i32::from),
            cards(&self.deck),
            self.left,
            self.offset,
            self.visible
        )
    }
}

/// "the blank one: all numbers 0"
pub const BLANK: Position =
    Position { deal: [0; 52], step: 0, counts: [0; 7], heights: [0; 4], deck: [0; 24], left: 0, offset: 0, visible: 0 };

/// The five masks, in the order of the listing.
#[derive(Clone, Copy, PartialEq, Eq, Debug, Default)]
pub struct Masks {
    pub reveal: u64,
    pub pile_stack: u64,
    pub deck_pile: u64,
    pub deck_stack: u64,
    pub stack_pile: u64,
}

/// A deck's length, step and offset alone.
#[derive(Clone, Copy, PartialEq, Eq, Debug)]
pub struct Cursor {
    pub len: u8,
    pub step: u8,
    pub offset: u8,
}

/// "none, pile emptied, or a Card"
#[derive(Clone, Copy, PartialEq, Eq, Debug)]
pub enum TurnedUp {
    Nothing,
    Emptied,
    Card(u8),
}

// The answers. `refusal` is 0 where the call is accepted. `position` is the given one, and for a deal, a resume,
// a move and an undo that is accepted the new one.

/// Of a fresh deal and of a resume.
#[derive(Clone, Copy, PartialEq, Eq, Debug)]
pub struct Started {
    pub refusal: u8,
    pub position: Position,
}

#[derive(Clone, Copy, PartialEq, Eq, Debug)]
pub struct Saved {
    pub refusal: u8,
    pub position: Position,
    pub code: u64,
}

#[derive(Clone, Copy, PartialEq, Eq, Debug)]
pub struct Masked {
    pub refusal: u8,
    pub position: Position,
    pub masks: Masks,
}

/// Of a question: the move test and the two win questions.
#[derive(Clone, Copy, PartialEq, Eq, Debug)]
pub struct Told {
    pub refusal: u8,
    pub position: Position,
    pub yes: bool,
}

/// Of the listing's twin, which does not write.
#[derive(Clone, Copy, PartialEq, Eq, Debug)]
pub struct Listed {
    pub refusal: u8,
    pub position: Position,
    pub count: usize,
}

#[derive(Clone, Copy, PartialEq, Eq, Debug)]
pub struct Heights {
    pub refusal: u8,
    pub position: Position,
    pub heights: [u8; 4],
}

#[derive(Clone, Copy, PartialEq, Eq, Debug)]
pub struct DeckView {
    pub refusal: u8,
    pub position: Position,
    pub cards: [u8; 24],
    pub left: u8,
    pub offset: u8,
}

#[derive(Clone, Copy, PartialEq, Eq, Debug)]
pub struct Located {
    pub refusal: u8,
    pub position: Position,
    pub found: bool,
    pub place: u8,
}

#[derive(Clone, Copy, PartialEq, Eq, Debug)]
pub struct Offset {
    pub refusal: u8,
    pub position: Position,
    pub offset: u8,
}

#[derive(Clone, Copy, PartialEq, Eq, Debug)]
pub struct Piled {
    pub refusal: u8,
    pub position: Position,
    pub lengths: [u8; 7],
}

#[derive(Clone, Copy, PartialEq, Eq, Debug)]
pub struct Moved {
    pub refusal: u8,
    pub position: Position,
    pub count: usize,
    pub byte: u8,
    pub turned: TurnedUp,
}

#[derive(Clone, Copy, PartialEq, Eq, Debug)]
pub struct Undone {
    pub refusal: u8,
    pub position: Position,
    pub count: usize,
}

/// Of the ladder question, which is given two positions.
#[derive(Clone, Copy, PartialEq, Eq, Debug)]
pub struct Ranked {
    pub refusal: u8,
    pub first: Position,
    pub second: Position,
    pub same: bool,
}

/// Of `deal_once` on a cursor that is given.
#[derive(Clone, Copy, PartialEq, Eq, Debug)]
pub struct Turned {
    pub refusal: u8,
    pub cursor: Cursor,
}
