//! Rows: the oracle's answers in a file, for a program that replays them on an engine.
//!
//! The file is a header and records, each 64 bytes; numbers of 2, 4 and 8 bytes are little-endian; bytes not named are 0.
//! Header: 0 'R', 1 the version (1), 4..8 the number of records. A reader must find just so many: a file cut short is a fault.
//! A replay keeps a position (at first blank) and a history of 64 slots (at first 0). Each record asks one call or a few;
//! a reader writes the record's outputs anew from its engine and compares the 64 bytes: a wrong byte names the field.
//! Byte 0 is the tag and byte 1 the refusal expected (output), 0 where each entry of the record has its own.
//!
//! | tag | call | inputs | outputs |
//! |---|---|---|---|
//! | 1 | deal | 2 step, 3 deal's length L, 4..56 deal (its first L bytes are lent) | 56..64 the new position's save code |
//! | 2 | resume, of the position's deal | 2 step, 3 deal's length L, 4..12 code, 20 place, 21 card: where place is below 52 that place of the deal has this card instead | 12..20 visible |
//! | 3 | move | 2 kind, 3 card, 4..6 room (the history's first slots that are lent), 6..8 count | 8..10 count, 10 byte, 11 turned up (0 nothing, 1 emptied, 2 a card), 12 that card, 14..16 the slot at the given count (0 past the room), 16..24 save code, 24..32 visible |
//! | 4 | undo | 2..4 entry, put at slot count - 1 first where count is 1 to room, 4..6 room, 6..8 count | 8..10 count, 16..24 save code, 24..32 visible |
//! | 5 | masks | 2 pruning asked | 8..48 reveal, pile_stack, deck_pile, deck_stack, stack_pile |
//! | 6 | move listing and its twin, in a buffer of EEEE | 2 pruning asked, 3 room | 4 count, 8.. the written front, 2 bytes each |
//! | 7 | face-up piles, in a buffer of EE | 2 room | 3..10 lengths, 10..62 the cards, pile after pile |
//! | 8 | heights, deck, is_win, is_sure_win, save | | 2..6 heights, 6 left, 7 offset, 8..32 deck cards, 32 win, 33 sure win, 40..48 save code |
//! | 9 | move tests | 2 how many, to 15; from 4 on, 4 bytes each: kind, card | in each: refusal, yes |
//! | 10 | finds | 2 how many, to 15; from 4 on, 4 bytes each: card | in each: refusal, found, place |
//! | 11 | offsets | 2 how many, to 20; from 4 on, 3 bytes each: n | in each: refusal, offset |
//! | 12 | ladder, with the position resumed from a code of the same deal, asked both ways | 3 step, 4..12 code | 2 same |
//! | 13 | deal_once on cursors, given and lent | 2 how many, to 12; from 4 on, 5 bytes each: length, step, offset | in each: refusal, offset |
//! | 14 | none: a number of the position is set | 2 field (0 deal, 1 step, 2 counts, 3 heights, 4 deck, 5 left, 6 offset, 7 visible), 3 index, 4 value; of visible the bit at index is set to value 0 or 1 | |
//!
//! The position after a record: the answer's, where a deal, resume, move or undo is accepted; otherwise as before. A deal or
//! resume that is accepted sets the history to 0. An accepted save code is that of the answer's position; it is 0 where the
//! call is refused. A reader also checks what no byte shows: that the given position comes back where a call is refused or only
//! reads (the blank one from a deal or resume), that a listing or pile buffer keeps its bytes behind the written part and all
//! of them where refused, that unused pile bytes become 255, that a refused move and every undo leave the history, that both
//! ways of tags 12 and 13 agree, and that the listing and its twin do.

pub const SIZE: usize = 64;
pub const HISTORY: usize = 64;
pub const VERSION: u8 = 1;
/// What listing and pile buffers are filled with before a call.
pub const FILL: u16 = 0xEEEE;

pub const DEAL: u8 = 1;
pub const RESUME: u8 = 2;
pub const MOVE: u8 = 3;
pub const UNDO: u8 = 4;
pub const MASKS: u8 = 5;
pub const LIST: u8 = 6;
pub const FACE_UP: u8 = 7;
pub const VIEW: u8 = 8;
pub const TESTS: u8 = 9;
pub const FINDS: u8 = 10;
pub const OFFSETS: u8 = 11;
pub const LADDER: u8 = 12;
pub const CURSORS: u8 = 13;
pub const SET: u8 = 14;

#[derive(Clone, Copy, PartialEq, Eq)]
pub struct Record(pub [u8; SIZE]);

impl Record {
    pub fn new(tag: u8) -> Self {
        let mut r = Self([0; SIZE]);
        r.0[0] = tag;
        r
    }
    pub fn put(mut self, at: usize, bytes: &[u8]) -> Self {
        self.0[at..at + bytes.len()].copy_from_slice(bytes);
        self
    }
    pub fn short(&self, at: usize) -> u16 {
        u16::from_le_bytes([self.0[at], self.0[at + 1]])
    }
    pub fn long(&self, at: usize) -> u64 {
        u64::from_le_bytes(self.0[at..at + 8].try_into().unwrap())
    }
    pub fn set(&mut self, at: usize, bytes: &[u8]) {
        *self = self.put(at, bytes);
    }
}
