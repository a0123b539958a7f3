//! "Dealing", and which deck cards are available.
use crate::cards::{Set, CARDS};
use crate::places::deck_left;
use crate::types::Position;

/// "from offset o go to 0 if o ≥ length, else to the smaller of o+step and length"
pub fn deal_once(len: usize, step: usize, offset: usize) -> usize {
    if offset >= len {
        0
    } else if offset + step < len {
        offset + step
    } else {
        len
    }
}

/// n deals in a row
pub fn deals(len: usize, step: usize, offset: usize, n: usize) -> usize {
    let mut offset = offset;
    for _ in 0..n {
        offset = deal_once(len, step, offset);
    }
    offset
}

/// The places k such that "some number of deals, none included, brings the offset just past it". The offset is never above
/// 24, so after as many deals as there are offsets it only comes by where it has been.
pub fn available_places(len: usize, step: usize, offset: usize) -> Vec<bool> {
    let mut reached = vec![false; len];
    let mut offset = offset;
    for _ in 0..60 {
        if offset > 0 {
            reached[offset - 1] = true;
        }
        offset = deal_once(len, step, offset);
    }
    reached
}

/// The available deck cards.
pub fn available(p: &Position) -> Set {
    let places = available_places(usize::from(p.left), usize::from(p.step), usize::from(p.offset));
    let mut set = [false; CARDS];
    for (k, &card) in deck_left(p).iter().enumerate() {
        set[usize::from(card)] = places[k];
    }
    set
}
