//! The proved engine, over its static library. Lent slices lie between guards, so that a byte written beside one is seen.
use crate::engine::Engine;
use gravyhelm as g;
use model::types::*;

/// Slots of guard on each side of a lent slice.
const GUARD: usize = 16;

pub struct Ours;

/// Lends a copy of the slice between guards, looks at the guards, and copies back.
fn guarded<T: Copy + Eq, R>(slice: &mut [T], guard: T, call: impl FnOnce(&mut [T]) -> R) -> R {
    let mut room = vec![guard; GUARD];
    room.extend_from_slice(slice);
    room.resize(room.len() + GUARD, guard);
    let end = GUARD + slice.len();
    let answer = call(&mut room[GUARD..end]);
    let kept = room[..GUARD].iter().chain(&room[end..]).all(|slot| *slot == guard);
    assert!(kept, "the engine wrote beside a lent slice");
    slice.copy_from_slice(&room[GUARD..end]);
    answer
}

fn to(p: &Position) -> g::Position {
    let Position { deal, step, counts, heights, deck, left, offset, visible } = *p;
    g::Position { deal, step, counts, heights, deck, left, offset, visible }
}

fn of(p: &g::Position) -> Position {
    let g::Position { deal, step, counts, heights, deck, left, offset, visible } = *p;
    Position { deal, step, counts, heights, deck, left, offset, visible }
}

fn started(s: g::Started) -> Option<Started> {
    Some(Started { refusal: s.refusal, position: of(&s.position) })
}

fn told(t: g::Told) -> Option<Told> {
    Some(Told { refusal: t.refusal, position: of(&t.position), yes: t.yes })
}

fn cursor_to(c: Cursor) -> g::Cursor {
    g::Cursor { len: c.len, step: c.step, offset: c.offset }
}

fn cursor_of(c: g::Cursor) -> Cursor {
    Cursor { len: c.len, step: c.step, offset: c.offset }
}

impl Engine for Ours {
    fn name(&self) -> &'static str {
        "ours"
    }
    fn deal(&mut self, deal: &[u8], step: u8) -> Option<Started> {
        started(g::deal(step, deal))
    }
    fn resume(&mut self, deal: &[u8], step: u8, code: u64) -> Option<Started> {
        started(g::resume(step, deal, code))
    }
    fn save(&mut self, p: &Position) -> Option<Saved> {
        let s = g::save(to(p));
        Some(Saved { refusal: s.refusal, position: of(&s.position), code: s.code })
    }
    fn masks(&mut self, p: &Position, pruned: bool) -> Option<Masked> {
        let m = g::masks(to(p), pruned);
        let g::Masks { reveal, pile_stack, deck_pile, deck_stack, stack_pile } = m.masks;
        let masks = Masks { reveal, pile_stack, deck_pile, deck_stack, stack_pile };
        Some(Masked { refusal: m.refusal, position: of(&m.position), masks })
    }
    fn test(&mut self, p: &Position, kind: u8, card: u8) -> Option<Told> {
        told(g::test(to(p), kind, card))
    }
    fn list(&mut self, p: &Position, pruned: bool, buffer: &mut [u16]) -> Option<usize> {
        Some(guarded(buffer, 0xA5C3, |buffer| g::list(to(p), pruned, buffer).len()))
    }
    fn list_count(&mut self, p: &Position, pruned: bool, room: usize) -> Option<Listed> {
        let l = g::list_count(to(p), pruned, room);
        Some(Listed { refusal: l.refusal, position: of(&l.position), count: l.count })
    }
    fn is_win(&mut self, p: &Position) -> Option<Told> {
        told(g::is_win(to(p)))
    }
    fn is_sure_win(&mut self, p: &Position) -> Option<Told> {
        told(g::is_sure_win(to(p)))
    }
    fn heights(&mut self, p: &Position) -> Option<Heights> {
        let h = g::heights(to(p));
        Some(Heights { refusal: h.refusal, position: of(&h.position), heights: h.heights })
    }
    fn deck(&mut self, p: &Position) -> Option<DeckView> {
        let g::DeckView { refusal, position, cards, left, offset } = g::deck(to(p));
        Some(DeckView { refusal, position: of(&position), cards, left, offset })
    }
    fn find(&mut self, p: &Position, card: u8) -> Option<Located> {
        let g::Located { refusal, position, found, place } = g::find(to(p), card);
        Some(Located { refusal, position: of(&position), found, place })
    }
    fn offset(&mut self, p: &Position, n: u8) -> Option<Offset> {
        let g::Offset { refusal, position, offset } = g::offset(to(p), n);
        Some(Offset { refusal, position: of(&position), offset })
    }
    fn face_up(&mut self, p: &Position, buffer: &mut [u8]) -> Option<Piled> {
        let g::Piled { refusal, position, lengths } = guarded(buffer, 0xA5, |buffer| g::piles(to(p), buffer));
        Some(Piled { refusal, position: of(&position), lengths })
    }
    fn do_move(&mut self, p: &Position, history: &mut [u16], count: usize, kind: u8, card: u8) -> Option<Moved> {
        let m = guarded(history, 0xA5C3, |history| g::do_move(to(p), history, count, kind, card));
        let turned = match m.turned {
            g::TurnedUp::Nothing => TurnedUp::Nothing,
            g::TurnedUp::Emptied => TurnedUp::Emptied,
            g::TurnedUp::Card(card) => TurnedUp::Card(card),
        };
        Some(Moved { refusal: m.refusal, position: of(&m.position), count: m.count, byte: m.byte, turned })
    }
    fn undo(&mut self, p: &Position, history: &mut [u16], count: usize) -> Option<Undone> {
        let u = guarded(history, 0xA5C3, |history| g::undo_move(to(p), history, count));
        Some(Undone { refusal: u.refusal, position: of(&u.position), count: u.count })
    }
    fn ladder(&mut self, p: &Position, q: &Position) -> Option<Ranked> {
        let c = g::ladder(to(p), to(q));
        Some(Ranked { refusal: c.refusal, first: of(&c.first), second: of(&c.second), same: c.same })
    }
    fn deal_once(&mut self, cursor: Cursor) -> Option<Turned> {
        let t = g::deal_once(cursor_to(cursor));
        Some(Turned { refusal: t.refusal, cursor: cursor_of(t.cursor) })
    }
    fn deal_once_lent(&mut self, cursor: &mut Cursor) -> Option<u8> {
        let mut lent = cursor_to(*cursor);
        let refusal = g::deal_once_lent(&mut lent);
        *cursor = cursor_of(lent);
        Some(refusal)
    }
}
