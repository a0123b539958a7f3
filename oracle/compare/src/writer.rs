//! Writes rows: what is asked of which positions.
use crate::make;
use crate::player::Player;
use crate::rng::Rng;
use crate::rows::*;
use crate::walk::kind_and_card;
use model::legal::{listing, unpruned};
use model::types::Position;

/// The records so far, and the position where they have come to.
pub struct Writer {
    pub player: Player,
    pub rng: Rng,
    pub records: Vec<Record>,
}

impl Writer {
    pub fn new(player: Player, seed: u64) -> Self {
        Self { player, rng: Rng::new(seed), records: vec![] }
    }

    fn add(&mut self, mut r: Record) -> Record {
        self.player.fill(&mut r);
        self.records.push(r);
        r
    }

    fn p(&self) -> Position {
        self.player.p
    }

    fn deal(&mut self, deal: &[u8; 52], step: u8) -> Record {
        self.add(Record::new(DEAL).put(2, &[step, 52]).put(4, deal))
    }

    fn resume(&mut self, step: u8, code: u64) -> Record {
        self.add(Record::new(RESUME).put(2, &[step, 52]).put(4, &code.to_le_bytes()).put(20, &[255]))
    }

    fn make(&mut self, number: u16, room: u16, count: u16) -> Record {
        let (kind, card) = kind_and_card(number);
        let r = Record::new(MOVE).put(2, &[kind, card]);
        self.add(r.put(4, &room.to_le_bytes()).put(6, &count.to_le_bytes()))
    }

    fn undo(&mut self, entry: u16, room: u16, count: u16) -> Record {
        let r = Record::new(UNDO).put(2, &entry.to_le_bytes());
        self.add(r.put(4, &room.to_le_bytes()).put(6, &count.to_le_bytes()))
    }

    fn set(&mut self, field: u8, index: u8, value: u8) {
        self.add(Record::new(SET).put(2, &[field, index, value]));
    }

    fn masks(&mut self, pruned: bool) {
        self.add(Record::new(MASKS).put(2, &[u8::from(pruned)]));
    }

    fn list(&mut self, pruned: bool, room: u8) -> Record {
        self.add(Record::new(LIST).put(2, &[u8::from(pruned), room]))
    }

    fn face_up(&mut self, room: u8) {
        self.add(Record::new(FACE_UP).put(2, &[room]));
    }

    /// Fifteen move tests, legal ones among them; fifteen finds; twenty offsets.
    fn questions(&mut self) {
        let p = self.p();
        let legal = if model::proper::proper(&p) { listing(&unpruned(&p)) } else { vec![] };
        let mut tests = Record::new(TESTS).put(2, &[15]);
        let mut finds = Record::new(FINDS).put(2, &[15]);
        let mut offsets = Record::new(OFFSETS).put(2, &[20]);
        for i in 0..15 {
            let some = self.rng.below(5 * 64) as u16;
            let (kind, card) = kind_and_card(*legal.get(2 * i).unwrap_or(&some));
            tests = tests.put(4 + 4 * i, &[kind, card]);
            finds = finds.put(4 + 4 * i, &[self.rng.byte_below(53)]);
        }
        tests = tests.put(60, &[5 + self.rng.byte_below(3)]);
        for i in 0..20 {
            let n = if i < 12 { i as u8 } else { self.rng.byte_below(256) };
            offsets = offsets.put(4 + 3 * i, &[n]);
        }
        self.add(tests);
        self.add(finds);
        self.add(offsets);
    }

    /// The ladder with this position, and with one that has another offset or count.
    fn ladder(&mut self) {
        let p = self.p();
        let other = make::shifted(&mut self.rng, &p);
        let other = if model::proper::proper(&other) { other } else { p };
        for (step, q) in [(p.step, p), (p.step, other), (1 + p.step % 24, p)] {
            let code = model::code::code(&q);
            self.add(Record::new(LADDER).put(3, &[step]).put(4, &code.to_le_bytes()));
        }
    }

    fn view(&mut self) {
        self.add(Record::new(VIEW));
        self.face_up(91);
        self.list(false, 24);
    }

    /// "Worked positions"
    pub fn worked(&mut self) {
        let w = make::deal_w();
        self.deal(&w, 3);
        self.masks(false);
        self.masks(true);
        self.view();
        self.make(64, 4, 0);
        self.make(64 + 2, 4, 1);
        self.deal(&w, 3);
        self.make(4 * 64 + 5, 4, 0);
        self.view();
        self.deal(&w, 3);
        self.make(4 * 64 + 9, 4, 0);
        let codes = [0x18FF_FFFF_9D80_0000, 0x03FF_FFFF_9D7F_0000, 0x04FF_FFFF_9D7F_0000, 0x18FF_FFFF_9D7F_0001];
        for code in codes.into_iter().chain([0x9D7F_0000, 0xDDDD]) {
            self.resume(3, code);
        }
        self.masks(false);
        self.view();
    }

    /// A game of random moves, then some of them undone.
    pub fn game(&mut self, step: u8) {
        let deal = make::shuffled(&mut self.rng);
        self.deal(&deal, step);
        let mut count = 0;
        while count < 22 {
            self.masks(false);
            self.masks(true);
            if count % 5 == 0 {
                self.view();
                self.list(true, 24);
                self.questions();
            }
            let listed = listing(&unpruned(&self.p()));
            let onward: Vec<u16> = listed.iter().copied().filter(|m| m / 64 != 3).collect();
            let from = if onward.is_empty() || self.rng.once_in(8) { &listed } else { &onward };
            if from.is_empty() {
                break;
            }
            let number = self.rng.pick(from);
            self.make(number, HISTORY as u16, count);
            count += 1;
        }
        self.ladder();
        for _ in 0..6.min(count) {
            let last = self.player.history[usize::from(count) - 1];
            self.undo(last, HISTORY as u16, count);
            count -= 1;
        }
        self.masks(false);
    }

    /// A proper position that play need not reach, by its code and its offset; a move, and its undo.
    pub fn position(&mut self) {
        let p = make::proper_position(&mut self.rng);
        self.deal(&p.deal, p.step);
        self.resume(p.step, model::code::code(&p));
        self.set(6, 0, p.offset);
        self.masks(false);
        self.masks(true);
        self.view();
        if self.rng.once_in(3) {
            self.questions();
        }
        let listed = listing(&unpruned(&p));
        if !listed.is_empty() {
            let number = self.rng.pick(&listed);
            let moved = self.make(number, 1, 0);
            self.undo(u16::from_le_bytes([moved.0[14], moved.0[15]]), 1, 1);
        }
    }

    /// Entries that do not fit, and histories that are full, empty or counted beyond.
    pub fn histories(&mut self) {
        let p = make::proper_position(&mut self.rng);
        self.deal(&p.deal, p.step);
        self.resume(p.step, model::code::code(&p));
        let some = self.rng.below(320) as u16;
        let legal = listing(&unpruned(&self.p())).first().copied().unwrap_or(some);
        let none = legal + 5 * 64;
        let asked = [
            (legal, 2, 2),
            (legal, 2, 3),
            (some, 2, 0),
            (none, 2, 0),
            (60, 2, 1),
            (none, 2, 3),
            (60, 2, 2),
            (some, 2, 2),
        ];
        for (number, room, count) in asked {
            self.make(number, room, count);
        }
        self.undo(0, 2, 0);
        self.undo(0, 2, 3);
        for _ in 0..4 {
            let p = self.p();
            let byte = self.rng.pick(&[0, 0, 1, p.offset]);
            let entry = u16::from(byte) * 512 + self.rng.below(6 * 64) as u16;
            let count = 1 + self.rng.below(2) as u16;
            self.undo(entry, 2, count);
        }
    }

    /// Codes and deals that are refused.
    pub fn refused_starts(&mut self) {
        let p = make::proper_position(&mut self.rng);
        self.deal(&p.deal, p.step);
        let code = model::code::code(&p);
        for _ in 0..10 {
            let code = make::some_code(&mut self.rng, &p);
            self.resume(p.step, code);
        }
        let [place, other] = [self.rng.byte_below(52), self.rng.byte_below(52)];
        let twice = p.deal[usize::from(other)];
        let spoilt = |r: Record| r.put(2, &[p.step, 52]).put(4, &code.to_le_bytes());
        self.add(spoilt(Record::new(RESUME)).put(20, &[place, 52 + other]));
        self.add(spoilt(Record::new(RESUME)).put(20, &[place, twice]));
        self.add(spoilt(Record::new(RESUME)).put(3, &[51]).put(20, &[255]));
        self.add(spoilt(Record::new(RESUME)).put(2, &[0]).put(20, &[255]));
        let deal = Record::new(DEAL).put(2, &[p.step, 52]).put(4, &p.deal);
        self.add(deal.put(4 + usize::from(place), &[52 + other]));
        self.add(deal.put(4 + usize::from(place), &[twice]));
        self.add(deal.put(3, &[other]));
        self.add(deal.put(2, &[25 + other]));
        // two faults at once: the lower number is given
        self.add(deal.put(2, &[0, 51]));
        self.add(deal.put(3, &[51]).put(4, &[52]));
        self.add(deal.put(4, &p.deal[1..2]).put(4 + 51, &[52]));
    }

    /// A number of a proper position set wrong, every call asked, and the number set right again. Spare slots don't count.
    pub fn improper(&mut self) {
        let p = make::proper_position(&mut self.rng);
        self.deal(&p.deal, p.step);
        self.resume(p.step, model::code::code(&p));
        let p = self.p();
        let head = usize::from(p.left.min(23));
        let bit = self.rng.byte_below(64);
        let edits = [
            (0, 7, p.deal[7], p.deal[8]),
            (0, 51, p.deal[51], 52),
            (1, 0, p.step, 0),
            (1, 0, p.step, 25),
            (2, 3, p.counts[3], 5),
            (3, 2, p.heights[2], 14),
            (4, head as u8, p.deck[head], 77),
            (5, 0, p.left, 25),
            (6, 0, p.offset, p.left + 1),
            (7, bit, (p.visible >> bit & 1) as u8, 1 - (p.visible >> bit & 1) as u8),
        ];
        let (field, index, right, wrong) = self.rng.pick(&edits);
        self.set(field, index, wrong);
        self.view();
        self.masks(false);
        self.masks(true);
        self.list(true, 24);
        self.questions();
        self.make(64, 0, 1);
        self.undo(0, 0, 1);
        self.add(Record::new(LADDER).put(3, &[p.step]).put(4, &model::code::code(&p).to_le_bytes()));
        self.set(field, index, right);
        self.face_up(90);
        self.face_up(99);
        let count = self.list(false, 20).0[4];
        self.list(false, count.saturating_sub(1));
        self.list(false, count);
    }

    pub fn cursors(&mut self) {
        let mut r = Record::new(CURSORS).put(2, &[12]);
        for i in 0..12 {
            let top = self.rng.pick(&[25, 25, 27, 256]);
            let cursor = [self.rng.byte_below(26), self.rng.byte_below(26), self.rng.byte_below(top)];
            r = r.put(4 + 5 * i, &cursor);
        }
        self.add(r);
    }
}
