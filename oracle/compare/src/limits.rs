//! Inputs that no careful caller gives: positions of any bytes, and slices, counts and numbers of every size around each limit.
use crate::engine::Call;
use crate::make;
use crate::walk::{kind_and_card, Walk};
use model::piles::PILES_ROOM;
use model::types::Position;

/// Numbers beside the limits of a step, a kind and a card, and far from them.
const STEPS: [u8; 7] = [0, 1, 2, 23, 24, 25, 255];
const MOVES: [(u8, u8); 8] = [(4, 51), (4, 52), (5, 51), (0, 52), (5, 52), (0, 63), (255, 0), (0, 255)];
const CARDS: [u8; 6] = [0, 51, 52, 63, 64, 255];
/// Counts that no slice has.
const FAR: [usize; 4] = [1 << 16, 1 << 32, usize::MAX - 1, usize::MAX];

impl Walk {
    /// Positions of any bytes, a proper one with a byte or a bit changed, and the deal and code that go with them.
    pub fn bytes(&mut self) {
        let any = make::any_bytes(&mut self.rng);
        self.malformed("of any bytes", &any, &any);
        let p = make::proper_position(&mut self.rng);
        let byte = make::byte_changed(&mut self.rng, &p);
        self.malformed("with one byte changed", &byte, &p);
        let bit = make::bit_changed(&mut self.rng, &p);
        self.malformed("with one bit changed", &bit, &p);
    }

    fn malformed(&mut self, what: &str, q: &Position, from: &Position) {
        let proper = if model::proper::proper(q) { "proper" } else { "not proper" };
        self.tally.note(&format!("positions {what}, {proper}"), 1);
        self.read(q);
        self.ask(Call::Ladder { p: *from, q: *q });
        self.ask(Call::Ladder { p: *q, q: *from });
        self.ask(Call::Deal { deal: q.deal.to_vec(), step: q.step });
        let code = make::some_code_or_any(&mut self.rng, q);
        self.ask(Call::Resume { deal: q.deal.to_vec(), step: q.step, code });
    }

    /// Buffers, histories, deals and numbers of every size around their limits, on any position.
    pub fn limits(&mut self, p: &Position) {
        self.buffers(p);
        self.histories(p);
        for length in [0, 1, 51, 52, 53, 104] {
            let mut deal = p.deal.to_vec();
            deal.resize(length, 0);
            for step in STEPS {
                self.ask(Call::Deal { deal: deal.clone(), step });
                let code = make::some_code_or_any(&mut self.rng, p);
                self.ask(Call::Resume { deal: deal.clone(), step, code });
            }
        }
        for card in CARDS {
            self.ask(Call::Find { p: *p, card });
        }
        for (kind, card) in MOVES {
            self.ask(Call::Test { p: *p, kind, card });
        }
    }

    fn buffers(&mut self, p: &Position) {
        let p = *p;
        let listed =
            if model::proper::proper(&p) { model::legal::listing(&model::legal::unpruned(&p)).len() } else { 3 };
        for pruned in [false, true] {
            for room in (0..=listed + 1).chain([listed + 40]) {
                let buffer = self.numbers(room);
                self.ask(Call::List { p, pruned, buffer });
                self.ask(Call::ListCount { p, pruned, room });
            }
            for room in FAR {
                self.ask(Call::ListCount { p, pruned, room });
            }
        }
        for room in [0, 1, 13, PILES_ROOM - 2, PILES_ROOM - 1, PILES_ROOM, PILES_ROOM + 1, PILES_ROOM + 13] {
            let buffer = (0..room).map(|_| self.rng.next() as u8).collect();
            self.ask(Call::FaceUp { p, buffer });
        }
    }

    /// A legal move, some move and one that is none, and their undo, at each count of short histories.
    fn histories(&mut self, p: &Position) {
        let p = *p;
        let listed =
            if model::proper::proper(&p) { model::legal::listing(&model::legal::unpruned(&p)) } else { vec![] };
        for room in 0..4 {
            for count in (0..=room + 2).chain(FAR) {
                let any = self.rng.below(320) as u16;
                let legal = if listed.is_empty() { any } else { self.rng.pick(&listed) };
                for (kind, card) in [kind_and_card(legal), kind_and_card(any), self.rng.pick(&MOVES)] {
                    let history = self.numbers(room);
                    self.ask(Call::Move { p, history, count, kind, card });
                }
                let history = self.numbers(room);
                self.ask(Call::Undo { p, history, count });
                if !listed.is_empty() {
                    let moved = model::calls::do_move(&p, &mut [0], 0, kind_and_card(legal).0, kind_and_card(legal).1);
                    let mut history = self.numbers(room);
                    if let Some(slot) = history.get_mut(count.wrapping_sub(1)) {
                        *slot = u16::from(moved.byte) * 512 + legal;
                    }
                    self.ask(Call::Undo { p: moved.position, history, count });
                }
            }
        }
    }
}
