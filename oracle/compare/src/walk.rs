//! Every call on one position.
use crate::engine::{Answer, Call, Engine};
use crate::make;
use crate::rng::Rng;
use crate::tally::Tally;
use model::types::{Masks, Moved, Position};
use model::undo::same;

pub struct Walk {
    pub sides: Vec<Box<dyn Engine>>,
    pub tally: Tally,
    pub rng: Rng,
}

/// A move number as kind and card.
pub fn kind_and_card(number: u16) -> (u8, u8) {
    ((number / 64) as u8, (number % 64) as u8)
}

fn all_of(m: &Masks) -> [u64; 5] {
    [m.reveal, m.pile_stack, m.deck_pile, m.deck_stack, m.stack_pile]
}

impl Walk {
    pub fn ask(&mut self, call: Call) -> Vec<Option<Answer>> {
        self.tally.ask(&mut self.sides, &call)
    }

    /// The first side's answer to a move, which is the model's.
    pub fn play(&mut self, p: &Position, history: &mut Vec<u16>, count: usize, number: u16) -> Moved {
        let (kind, card) = kind_and_card(number);
        let answers = self.ask(Call::Move { p: *p, history: history.clone(), count, kind, card });
        match answers.into_iter().flatten().next() {
            Some(Answer::Moved(moved, after)) => {
                *history = after;
                moved
            }
            _ => panic!("no side answers a move"),
        }
    }

    pub fn numbers(&mut self, room: usize) -> Vec<u16> {
        (0..room).map(|_| self.rng.next() as u16).collect()
    }

    /// Each call once, on any position at all.
    pub fn read(&mut self, p: &Position) {
        let p = *p;
        self.ask(Call::Save { p });
        self.ask(Call::IsWin { p });
        self.ask(Call::IsSureWin { p });
        self.ask(Call::Heights { p });
        self.ask(Call::Deck { p });
        let room = if self.rng.once_in(4) { self.rng.below(91) } else { 91 + self.rng.below(9) };
        let buffer = (0..room).map(|_| self.rng.next() as u8).collect();
        self.ask(Call::FaceUp { p, buffer });
        for pruned in [false, true] {
            let room = if self.rng.once_in(4) { self.rng.below(20) } else { 24 + self.rng.below(4) };
            let buffer = self.numbers(room);
            self.ask(Call::List { p, pruned, buffer });
            self.ask(Call::ListCount { p, pruned, room });
        }
        self.masks(&p);
        self.questions(&p);
        self.others(&p);
    }

    fn masks(&mut self, p: &Position) {
        let unpruned = self.ask(Call::Masks { p: *p, pruned: false });
        let pruned = self.ask(Call::Masks { p: *p, pruned: true });
        for (whole, part) in unpruned.iter().zip(&pruned) {
            if let (Some(Answer::Masked(whole)), Some(Answer::Masked(part))) = (whole, part) {
                let within = all_of(&part.masks).iter().zip(all_of(&whole.masks)).all(|(a, b)| a & !b == 0);
                self.tally.must("pruned masks within the unpruned", within, || format!("{p:?}"));
            }
        }
    }

    /// Calls with a number: some of them, and now and then every one.
    fn questions(&mut self, p: &Position) {
        let p = *p;
        let every = self.rng.once_in(24);
        for i in 0..if every { 256 } else { 5 } {
            let n = if every { i as u8 } else { self.rng.byte_below(256) };
            self.ask(Call::Offset { p, n });
        }
        for i in 0..if every { 256 } else { 5 } {
            let card = if every { i as u8 } else { self.rng.byte_below(56) };
            self.ask(Call::Find { p, card });
        }
        for i in 0..if every { 512 } else { 6 } {
            let number = if every { i } else { self.rng.below(384) };
            let (kind, card) = kind_and_card(number as u16);
            self.ask(Call::Test { p, kind, card });
        }
    }

    /// Refused moves and undos, and the ladder.
    fn others(&mut self, p: &Position) {
        let p = *p;
        for _ in 0..3 {
            let room = self.rng.below(4);
            let history = self.numbers(room);
            let count = self.rng.below(5);
            let (kind, card) = kind_and_card(self.rng.below(400) as u16);
            self.ask(Call::Move { p, history, count, kind, card });
        }
        for _ in 0..3 {
            let room = self.rng.below(4);
            let mut history = self.numbers(room);
            let count = self.rng.below(5);
            if let Some(last) = history.get_mut(count.wrapping_sub(1)) {
                *last = self.rng.below(25) as u16 * 512 + self.rng.below(5) as u16 * 64 + self.rng.below(52) as u16;
            }
            self.ask(Call::Undo { p, history, count });
        }
        let mut q = p;
        match self.rng.below(3) {
            0 => q.offset = self.rng.byte_below(usize::from(p.left) + 1),
            1 => q = make::shifted(&mut self.rng, &p),
            _ => q.step = make::some_step(&mut self.rng),
        }
        self.ask(Call::Ladder { p, q });
    }

    /// Undoes the move just made: every side that answers must come back to p.
    pub fn take_back(&mut self, p: &Position, now: &Position, history: Vec<u16>, count: usize) {
        let answers = self.ask(Call::Undo { p: *now, history, count });
        for answer in answers.into_iter().flatten() {
            let Answer::Undone(u, _) = answer else { unreachable!() };
            let back = u.refusal == 0 && u.count + 1 == count && same(&u.position, p);
            self.tally.must("a move just made is undone, by each side", back, || format!("{p:?} {now:?}"));
        }
    }

    /// Every legal move of a proper position, and the undo of each.
    pub fn moves(&mut self, p: &Position) {
        for number in model::legal::listing(&model::legal::unpruned(p)) {
            let count = self.rng.below(3);
            let room = count + self.rng.below(3);
            let mut history = self.numbers(room);
            let moved = self.play(p, &mut history, count, number);
            if moved.refusal == 0 {
                self.tally.must(
                    "a legal move keeps the position proper",
                    model::proper::proper(&moved.position),
                    || format!("{p:?} {number}"),
                );
                self.take_back(p, &moved.position, history, moved.count);
            }
        }
        let refusal = model::calls::resume(&p.deal, p.step, model::code::code(p)).refusal;
        self.tally.must("a saved position is resumed", refusal == 0, || format!("{p:?}"));
        self.ask(Call::Resume { deal: p.deal.to_vec(), step: p.step, code: model::code::code(p) });
    }
}
