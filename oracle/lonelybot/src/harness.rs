//! One struct over the engine: plain numbers in, plain numbers out, and nothing worked out beside it.
//! Kinds: DeckStack 0, PileStack 1, DeckPile 2, StackPile 3, Reveal 4.
use crate::card::Card;
use crate::engine::SolitaireEngine;
use crate::moves::{Move, MoveMask};
use crate::pruning::NoPruner;
use crate::state::{peek, ExtraInfo, Solitaire};
use core::num::NonZeroU8;
use core::ops::ControlFlow;

#[derive(Clone)]
pub struct Oracle(pub Solitaire);

/// What a removed head turned up.
#[derive(Clone, Copy, PartialEq, Eq, Debug)]
pub enum Extra {
    Nothing,
    Emptied,
    Card(u8),
}

/// The engine's five masks.
#[derive(Clone, Copy, PartialEq, Eq, Debug)]
pub struct FiveMasks {
    pub reveal: u64,
    pub pile_stack: u64,
    pub deck_pile: u64,
    pub deck_stack: u64,
    pub stack_pile: u64,
}

fn move_of(kind: u8, card: u8) -> Move {
    let card = Card::from_mask_index(card);
    match kind {
        0 => Move::DeckStack(card),
        1 => Move::PileStack(card),
        2 => Move::DeckPile(card),
        3 => Move::StackPile(card),
        4 => Move::Reveal(card),
        _ => panic!("no kind {kind}"),
    }
}

pub fn number_of(m: Move) -> u16 {
    let (kind, card) = match m {
        Move::DeckStack(c) => (0, c),
        Move::PileStack(c) => (1, c),
        Move::DeckPile(c) => (2, c),
        Move::StackPile(c) => (3, c),
        Move::Reveal(c) => (4, c),
    };
    kind * 64 + u16::from(card.mask_index())
}

fn five(m: &MoveMask) -> FiveMasks {
    FiveMasks {
        reveal: m.reveal,
        pile_stack: m.pile_stack,
        deck_pile: m.deck_pile,
        deck_stack: m.deck_stack,
        stack_pile: m.stack_pile,
    }
}

impl Oracle {
    /// `Solitaire::new`
    pub fn fresh(step: u8, deal: &[u8; 52]) -> Self {
        let cards: [Card; 52] = core::array::from_fn(|i| Card::from_mask_index(deal[i]));
        Self(Solitaire::new(&cards, NonZeroU8::new(step).unwrap()))
    }

    /// `new`, then `decode`: the top byte becomes the offset as it is.
    pub fn at(step: u8, deal: &[u8; 52], code: u64) -> Self {
        let mut o = Self::fresh(step, deal);
        o.0.decode(code);
        o
    }

    /// `decode` alone, over a state of the same deal and step.
    pub fn decode(&mut self, code: u64) {
        self.0.decode(code);
    }

    /// `SolitaireEngine::decode`, the checked one: the state, or none where it says no.
    pub fn checked_decode(step: u8, deal: &[u8; 52], code: u64) -> Option<Self> {
        let mut engine: SolitaireEngine<NoPruner> = Self::fresh(step, deal).0.into();
        engine.decode(code).then(|| Self(engine.into_state()))
    }

    pub fn code(&self) -> u64 {
        self.0.encode()
    }

    fn unpruned_or_not(&self, pruned: bool) -> MoveMask {
        if pruned {
            self.0.gen_moves::<true>()
        } else {
            self.0.gen_moves::<false>()
        }
    }

    pub fn masks(&self, pruned: bool) -> FiveMasks {
        five(&self.unpruned_or_not(pruned))
    }

    /// `iter_moves`, each move as kind * 64 + card
    pub fn list(&self, pruned: bool) -> Vec<u16> {
        let mut listed = vec![];
        let _ = self.unpruned_or_not(pruned).iter_moves(|m| {
            listed.push(number_of(m));
            ControlFlow::<()>::Continue(())
        });
        listed
    }

    pub fn is_valid_move(&self, kind: u8, card: u8) -> bool {
        self.0.is_valid_move(move_of(kind, card))
    }

    /// `do_move`: the undo byte and what was turned up
    pub fn do_move(&mut self, kind: u8, card: u8) -> (u8, Extra) {
        let (_, (undo, extra)) = self.0.do_move(move_of(kind, card));
        let extra = match extra {
            ExtraInfo::None => Extra::Nothing,
            ExtraInfo::RevealEmpty => Extra::Emptied,
            ExtraInfo::Card(c) => Extra::Card(c.mask_index()),
        };
        (undo, extra)
    }

    pub fn undo_move(&mut self, kind: u8, card: u8, undo: u8) {
        self.0.undo_move(move_of(kind, card), undo);
    }

    pub fn is_valid(&self) -> bool {
        self.0.is_valid()
    }

    pub fn is_win(&self) -> bool {
        self.0.is_win()
    }

    pub fn is_sure_win(&self) -> bool {
        self.0.is_sure_win()
    }

    pub fn compute_visible_piles(&self) -> [Vec<u8>; 7] {
        self.0
            .compute_visible_piles()
            .map(|pile| pile.iter().map(|c| c.mask_index()).collect())
    }

    pub fn find_card(&self, card: u8) -> (bool, u8) {
        self.0.get_deck().find_card(Card::from_mask_index(card))
    }

    pub fn offset(&self, n: u8) -> u8 {
        self.0.get_deck().offset(n)
    }

    pub fn deal_once(&mut self) {
        peek::deck_mut(&mut self.0).deal_once();
    }

    /// `compute_mask(false)`: the available deck cards
    pub fn available(&self) -> u64 {
        self.0.get_deck().compute_mask(false)
    }

    pub fn equivalent_to(&self, other: &Self) -> bool {
        self.0.equivalent_to(&other.0)
    }

    pub fn hidden_clear(&mut self) {
        self.0.hidden_clear();
    }

    pub fn visible(&self) -> u64 {
        peek::visible(&self.0)
    }

    pub fn heights(&self) -> [u8; 4] {
        [0, 1, 2, 3].map(|suit| self.0.get_stack().get(suit))
    }

    pub fn counts(&self) -> [u8; 7] {
        [0, 1, 2, 3, 4, 5, 6].map(|pile| self.0.get_hidden().len(pile))
    }

    pub fn deck(&self) -> Vec<u8> {
        self.0.get_deck().iter().map(|c| c.mask_index()).collect()
    }

    pub fn current_offset(&self) -> u8 {
        self.0.get_deck().get_offset()
    }
}
