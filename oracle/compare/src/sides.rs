//! The sides: the model of document 01, and the Rust.
use crate::engine::{Engine, NO_NUMBER, PANICKED};
use crate::rust;
use lonelybot::harness::Oracle;
use model::calls;
use model::proper::proper;
use model::types::*;
use model::undo::{earlier, entry, is_kind_and_card, parts, same};
use std::panic::{catch_unwind, AssertUnwindSafe};

/// Document 01's own answers: all but the pruned masks, which are the source's.
pub struct Model;

impl Engine for Model {
    fn name(&self) -> &'static str {
        "model"
    }
    fn deal(&mut self, deal: &[u8], step: u8) -> Option<Started> {
        Some(calls::deal(deal, step))
    }
    fn resume(&mut self, deal: &[u8], step: u8, code: u64) -> Option<Started> {
        Some(calls::resume(deal, step, code))
    }
    fn save(&mut self, p: &Position) -> Option<Saved> {
        Some(calls::save(p))
    }
    fn masks(&mut self, p: &Position, pruned: bool) -> Option<Masked> {
        (!pruned || !proper(p)).then(|| calls::masks(p))
    }
    fn test(&mut self, p: &Position, kind: u8, card: u8) -> Option<Told> {
        Some(calls::test(p, kind, card))
    }
    fn list(&mut self, p: &Position, pruned: bool, buffer: &mut [u16]) -> Option<usize> {
        (!pruned || !proper(p)).then(|| calls::list(p, buffer))
    }
    fn list_count(&mut self, p: &Position, pruned: bool, room: usize) -> Option<Listed> {
        (!pruned || !proper(p)).then(|| calls::list_count(p, room))
    }
    fn is_win(&mut self, p: &Position) -> Option<Told> {
        Some(calls::is_win(p))
    }
    fn is_sure_win(&mut self, p: &Position) -> Option<Told> {
        Some(calls::is_sure_win(p))
    }
    fn heights(&mut self, p: &Position) -> Option<Heights> {
        Some(calls::heights(p))
    }
    fn deck(&mut self, p: &Position) -> Option<DeckView> {
        Some(calls::deck(p))
    }
    fn find(&mut self, p: &Position, card: u8) -> Option<Located> {
        Some(calls::find(p, card))
    }
    fn offset(&mut self, p: &Position, n: u8) -> Option<Offset> {
        Some(calls::offset(p, n))
    }
    fn face_up(&mut self, p: &Position, buffer: &mut [u8]) -> Option<Piled> {
        Some(calls::face_up(p, buffer))
    }
    fn do_move(&mut self, p: &Position, history: &mut [u16], count: usize, kind: u8, card: u8) -> Option<Moved> {
        Some(calls::do_move(p, history, count, kind, card))
    }
    fn undo(&mut self, p: &Position, history: &mut [u16], count: usize) -> Option<Undone> {
        Some(calls::undo(p, history, count))
    }
    fn ladder(&mut self, p: &Position, q: &Position) -> Option<Ranked> {
        Some(calls::ladder(p, q))
    }
    fn deal_once(&mut self, cursor: Cursor) -> Option<Turned> {
        Some(calls::deal_once(cursor))
    }
    fn deal_once_lent(&mut self, cursor: &mut Cursor) -> Option<u8> {
        Some(calls::deal_once_lent(cursor))
    }
}

/// The Rust. It has no refusals, so it answers for proper positions only, and for inputs that its types can hold. It says no
/// to a code (`SolitaireEngine::decode`) and to a move (`is_valid_move`) without a number. It does not judge an undo: it
/// answers where the model finds an earlier position.
#[derive(Default)]
pub struct Rust {
    last: Option<(Position, Oracle)>,
}

impl Rust {
    /// The Rust's state at p, kept from call to call.
    fn at(&mut self, p: &Position) -> Option<&Oracle> {
        if self.last.as_ref().is_none_or(|(q, _)| q != p) {
            if !proper(p) {
                return None;
            }
            let o = rust::at(p);
            assert!(same(&rust::read(&o, &p.deal, p.step), p), "decode gives another position than {p:?}");
            assert!(o.is_valid(), "the Rust finds {p:?} not valid");
            self.last = Some((*p, o));
        }
        self.last.as_ref().map(|(_, o)| o)
    }

    /// The position of a state that was at p: where the deck is not touched, spare slots stay as they were.
    fn after(o: &Oracle, p: &Position, deck_changes: bool) -> Position {
        let mut q = rust::read(o, &p.deal, p.step);
        let left = usize::from(p.left);
        if !deck_changes && q.deck[..left] == p.deck[..left] {
            q.deck = p.deck;
        }
        q
    }
}

fn right_deal(deal: &[u8], step: u8) -> Option<[u8; 52]> {
    (model::code::deal_refusal(deal, step) == 0).then(|| deal.try_into().unwrap())
}

fn takes_from_deck(kind: u8) -> bool {
    kind == model::legal::DECK_STACK || kind == model::legal::DECK_PILE
}

impl Engine for Rust {
    fn name(&self) -> &'static str {
        "Rust"
    }
    fn deal(&mut self, deal: &[u8], step: u8) -> Option<Started> {
        let deal = right_deal(deal, step)?;
        Some(Started { refusal: 0, position: rust::read(&Oracle::fresh(step, &deal), &deal, step) })
    }
    fn resume(&mut self, deal: &[u8], step: u8, code: u64) -> Option<Started> {
        let deal = right_deal(deal, step)?;
        let read = || Oracle::checked_decode(step, &deal, code).map(|o| rust::read(&o, &deal, step));
        Some(match catch_unwind(AssertUnwindSafe(read)) {
            Ok(Some(position)) => Started { refusal: 0, position },
            Ok(None) => Started { refusal: NO_NUMBER, position: BLANK },
            Err(_) => Started { refusal: PANICKED, position: BLANK },
        })
    }
    fn save(&mut self, p: &Position) -> Option<Saved> {
        let code = self.at(p)?.code();
        Some(Saved { refusal: 0, position: *p, code })
    }
    fn masks(&mut self, p: &Position, pruned: bool) -> Option<Masked> {
        let masks = rust::masks(self.at(p)?, pruned);
        Some(Masked { refusal: 0, position: *p, masks })
    }
    fn test(&mut self, p: &Position, kind: u8, card: u8) -> Option<Told> {
        let o = self.at(p)?;
        is_kind_and_card(kind, card).then(|| Told { refusal: 0, position: *p, yes: o.is_valid_move(kind, card) })
    }
    fn list(&mut self, p: &Position, pruned: bool, buffer: &mut [u16]) -> Option<usize> {
        let listed = self.at(p)?.list(pruned);
        buffer.get_mut(..listed.len())?.copy_from_slice(&listed);
        Some(listed.len())
    }
    fn list_count(&mut self, p: &Position, pruned: bool, room: usize) -> Option<Listed> {
        let count = self.at(p)?.list(pruned).len();
        (count <= room).then_some(Listed { refusal: 0, position: *p, count })
    }
    fn is_win(&mut self, p: &Position) -> Option<Told> {
        let yes = self.at(p)?.is_win();
        Some(Told { refusal: 0, position: *p, yes })
    }
    fn is_sure_win(&mut self, p: &Position) -> Option<Told> {
        let yes = self.at(p)?.is_sure_win();
        Some(Told { refusal: 0, position: *p, yes })
    }
    fn heights(&mut self, p: &Position) -> Option<Heights> {
        let heights = self.at(p)?.heights();
        Some(Heights { refusal: 0, position: *p, heights })
    }
    fn deck(&mut self, p: &Position) -> Option<DeckView> {
        let q = rust::read(self.at(p)?, &p.deal, p.step);
        Some(DeckView { refusal: 0, position: *p, cards: q.deck, left: q.left, offset: q.offset })
    }
    fn find(&mut self, p: &Position, card: u8) -> Option<Located> {
        let o = self.at(p)?;
        if card > 51 {
            return None;
        }
        // a panic is a difference too: it shows as place 255
        let (found, place) = catch_unwind(AssertUnwindSafe(|| o.find_card(card))).unwrap_or((false, 255));
        Some(Located { refusal: 0, position: *p, found, place })
    }
    fn offset(&mut self, p: &Position, n: u8) -> Option<Offset> {
        let offset = self.at(p)?.offset(n);
        Some(Offset { refusal: 0, position: *p, offset })
    }
    fn face_up(&mut self, p: &Position, buffer: &mut [u8]) -> Option<Piled> {
        let piles = self.at(p)?.compute_visible_piles();
        buffer.get_mut(..91)?.fill(255);
        for (i, pile) in piles.iter().enumerate() {
            buffer[13 * i..13 * i + pile.len()].copy_from_slice(pile);
        }
        Some(Piled { refusal: 0, position: *p, lengths: piles.map(|pile| pile.len() as u8) })
    }
    fn do_move(&mut self, p: &Position, history: &mut [u16], count: usize, kind: u8, card: u8) -> Option<Moved> {
        let o = self.at(p)?;
        if !is_kind_and_card(kind, card) {
            return None;
        }
        if !o.is_valid_move(kind, card) {
            return Some(Moved { refusal: NO_NUMBER, position: *p, count, byte: 0, turned: TurnedUp::Nothing });
        }
        let slot = history.get_mut(count)?;
        let mut o = o.clone();
        let (byte, extra) = o.do_move(kind, card);
        *slot = entry(byte, kind, card);
        let position = Self::after(&o, p, takes_from_deck(kind));
        Some(Moved { refusal: 0, position, count: count + 1, byte, turned: rust::turned(extra) })
    }
    fn undo(&mut self, p: &Position, history: &mut [u16], count: usize) -> Option<Undone> {
        let mut o = self.at(p)?.clone();
        let last = *history.get(count.checked_sub(1)?)?;
        earlier(p, last)?;
        let (byte, kind, card) = parts(last);
        o.undo_move(kind, card, byte);
        Some(Undone { refusal: 0, position: Self::after(&o, p, takes_from_deck(kind)), count: count - 1 })
    }
    /// By its codes: the Rust has no question of its own that reads the deal and the step.
    fn ladder(&mut self, p: &Position, q: &Position) -> Option<Ranked> {
        if p.deal != q.deal || p.step != q.step {
            return None;
        }
        let same = self.at(p)?.code() == self.at(q)?.code();
        Some(Ranked { refusal: 0, first: *p, second: *q, same })
    }
    fn deal_once(&mut self, cursor: Cursor) -> Option<Turned> {
        if calls::deal_once(cursor).refusal != 0 {
            return None;
        }
        // any deal, with the first `len` of the deck's places left
        let deal: [u8; 52] = core::array::from_fn(|k| k as u8);
        let code = ((1u64 << cursor.len) - 1) << 32 | u64::from(cursor.offset) << 56;
        let mut o = Oracle::at(cursor.step, &deal, code);
        o.deal_once();
        Some(Turned { refusal: 0, cursor: Cursor { offset: o.current_offset(), ..cursor } })
    }
    fn deal_once_lent(&mut self, cursor: &mut Cursor) -> Option<u8> {
        *cursor = self.deal_once(*cursor)?.cursor;
        Some(0)
    }
}

/// Every side there is: with the feature `ours` the proved engine too.
pub fn all() -> Vec<Box<dyn Engine>> {
    vec![
        Box::new(Model),
        Box::<Rust>::default(),
        #[cfg(feature = "ours")]
        Box::new(crate::ours::Ours),
    ]
}
