//! Replays rows: asks what each record asks, and writes the answers into it.
use crate::engine::{Answer, Call, Engine};
use crate::rows::*;
use crate::tally::Tally;
use model::types::*;

/// Replays records over sides: the first side that answers is believed, the others are held against it.
pub struct Player {
    pub sides: Vec<Box<dyn Engine>>,
    pub tally: Tally,
    pub p: Position,
    pub history: [u16; HISTORY],
    pub faults: Vec<String>,
}

impl Player {
    pub fn new(sides: Vec<Box<dyn Engine>>) -> Self {
        Self { sides, tally: Tally::default(), p: BLANK, history: [0; HISTORY], faults: vec![] }
    }

    fn answer(&mut self, call: Call) -> Answer {
        self.tally.ask(&mut self.sides, &call).into_iter().flatten().next().expect("a side that answers")
    }

    fn must(&mut self, what: &str, holds: bool) {
        if !holds {
            self.faults.push(what.to_string());
        }
    }

    /// Asks what the record asks, writes its outputs, and moves on.
    pub fn fill(&mut self, r: &mut Record) {
        match r.0[0] {
            DEAL => self.deal(r),
            RESUME => self.resume(r),
            MOVE => self.make(r),
            UNDO => self.undo(r),
            MASKS => self.masks(r),
            LIST => self.list(r),
            FACE_UP => self.face_up(r),
            VIEW => self.view(r),
            TESTS => self.tests(r),
            FINDS => self.finds(r),
            OFFSETS => self.offsets(r),
            LADDER => self.ladder(r),
            CURSORS => self.cursors(r),
            SET => set(&mut self.p, r),
            tag => self.faults.push(format!("no tag {tag}")),
        }
    }

    fn save_code(&mut self, p: Position) -> u64 {
        match self.answer(Call::Save { p }) {
            Answer::Saved(s) => {
                self.must("save hands the position back", s.position == p);
                s.code
            }
            _ => unreachable!(),
        }
    }

    fn start(&mut self, call: Call) -> Started {
        let Answer::Started(s) = self.answer(call) else { unreachable!() };
        if s.refusal == 0 {
            self.p = s.position;
            self.history = [0; HISTORY];
        } else {
            self.must("a refused deal or resume gives the blank position", s.position == BLANK);
        }
        s
    }

    fn deal(&mut self, r: &mut Record) {
        let deal = r.0[4..56][..usize::from(r.0[3])].to_vec();
        let s = self.start(Call::Deal { deal, step: r.0[2] });
        r.0[1] = s.refusal;
        let code = if s.refusal == 0 { self.save_code(s.position) } else { 0 };
        r.set(56, &code.to_le_bytes());
    }

    fn resume(&mut self, r: &mut Record) {
        let mut deal = self.p.deal;
        if let Some(place) = deal.get_mut(usize::from(r.0[20])) {
            *place = r.0[21];
        }
        let deal = deal[..usize::from(r.0[3])].to_vec();
        let s = self.start(Call::Resume { deal, step: r.0[2], code: r.long(4) });
        r.0[1] = s.refusal;
        r.set(12, &s.position.visible.to_le_bytes());
    }

    /// The new position, or the given one where the call is refused.
    fn arrive(&mut self, r: &mut Record, refusal: u8, position: Position, count: usize) {
        r.0[1] = refusal;
        r.set(8, &(count as u16).to_le_bytes());
        let mut code = 0;
        let mut visible = 0;
        if refusal == 0 {
            self.p = position;
            code = self.save_code(position);
            visible = position.visible;
        } else {
            self.must("a refused move or undo gives the position back", position == self.p);
        }
        r.set(16, &code.to_le_bytes());
        r.set(24, &visible.to_le_bytes());
    }

    fn make(&mut self, r: &mut Record) {
        let [room, count] = [r.short(4), r.short(6)].map(usize::from);
        let history = self.history[..room].to_vec();
        let call = Call::Move { p: self.p, history: history.clone(), count, kind: r.0[2], card: r.0[3] };
        let Answer::Moved(m, after) = self.answer(call) else { unreachable!() };
        let (case, card) = match m.turned {
            TurnedUp::Nothing => (0, 0),
            TurnedUp::Emptied => (1, 0),
            TurnedUp::Card(card) => (2, card),
        };
        r.set(10, &[m.byte, case, card]);
        r.set(14, &after.get(count).copied().unwrap_or(0).to_le_bytes());
        let mut expected = history;
        if m.refusal == 0 {
            expected[count] = after[count];
        }
        self.must("a move writes one slot alone, a refused one none", after == expected);
        self.history[..room].copy_from_slice(&after);
        self.arrive(r, m.refusal, m.position, m.count);
    }

    fn undo(&mut self, r: &mut Record) {
        let [room, count] = [r.short(4), r.short(6)].map(usize::from);
        if (1..=room).contains(&count) {
            self.history[count - 1] = r.short(2);
        }
        let history = self.history[..room].to_vec();
        let Answer::Undone(u, after) = self.answer(Call::Undo { p: self.p, history: history.clone(), count }) else {
            unreachable!()
        };
        self.must("an undo leaves the slice", after == history);
        self.arrive(r, u.refusal, u.position, u.count);
    }

    fn masks(&mut self, r: &mut Record) {
        let p = self.p;
        let Answer::Masked(m) = self.answer(Call::Masks { p, pruned: r.0[2] == 1 }) else { unreachable!() };
        self.must("masks hand the position back", m.position == p);
        r.0[1] = m.refusal;
        let m = m.masks;
        for (i, mask) in [m.reveal, m.pile_stack, m.deck_pile, m.deck_stack, m.stack_pile].iter().enumerate() {
            r.set(8 + 8 * i, &mask.to_le_bytes());
        }
    }

    fn list(&mut self, r: &mut Record) {
        let (p, pruned, room) = (self.p, r.0[2] == 1, usize::from(r.0[3]));
        let Answer::Listed(twin) = self.answer(Call::ListCount { p, pruned, room }) else { unreachable!() };
        self.must("the listing's twin hands the position back", twin.position == p);
        let Answer::Front(front, after) = self.answer(Call::List { p, pruned, buffer: vec![FILL; room] }) else {
            unreachable!()
        };
        self.must("the listing's front is as long as its twin says", front == twin.count);
        self.must("slots behind the front stay", after[front..].iter().all(|&slot| slot == FILL));
        r.0[1] = twin.refusal;
        r.0[4] = front as u8;
        r.set(8, &[0; SIZE - 8]);
        for (i, number) in after[..front].iter().enumerate() {
            r.set(8 + 2 * i, &number.to_le_bytes());
        }
    }

    fn face_up(&mut self, r: &mut Record) {
        let (p, room) = (self.p, usize::from(r.0[2]));
        let buffer = vec![FILL as u8; room];
        let Answer::Piled(piled, after) = self.answer(Call::FaceUp { p, buffer: buffer.clone() }) else {
            unreachable!()
        };
        self.must("the piles hand the position back", piled.position == p);
        r.0[1] = piled.refusal;
        r.set(3, &piled.lengths);
        r.set(10, &[0; SIZE - 10]);
        if piled.refusal != 0 {
            self.must("a refused pile buffer keeps its bytes", after == buffer);
            return;
        }
        let mut at = 10;
        for (pile, &length) in piled.lengths.iter().enumerate() {
            let (shown, unused) = after[13 * pile..13 * pile + 13].split_at(usize::from(length));
            r.set(at, shown);
            at += shown.len();
            self.must("unused pile bytes become 255", unused.iter().all(|&byte| byte == 255));
        }
        self.must("bytes behind the piles stay", after[91..] == buffer[91..]);
    }

    fn view(&mut self, r: &mut Record) {
        let p = self.p;
        let Answer::Heights(heights) = self.answer(Call::Heights { p }) else { unreachable!() };
        let Answer::DeckView(deck) = self.answer(Call::Deck { p }) else { unreachable!() };
        let Answer::Told(win) = self.answer(Call::IsWin { p }) else { unreachable!() };
        let Answer::Told(sure) = self.answer(Call::IsSureWin { p }) else { unreachable!() };
        let Answer::Saved(saved) = self.answer(Call::Save { p }) else { unreachable!() };
        let back = [heights.position, deck.position, win.position, sure.position, saved.position];
        self.must("each view hands the position back", back.iter().all(|q| *q == p));
        let refusals = [deck.refusal, win.refusal, sure.refusal, saved.refusal];
        self.must("each view refuses alike", refusals.iter().all(|&n| n == heights.refusal));
        r.0[1] = heights.refusal;
        r.set(2, &heights.heights);
        r.set(6, &[deck.left, deck.offset]);
        r.set(8, &deck.cards);
        r.set(32, &[u8::from(win.yes), u8::from(sure.yes)]);
        r.set(40, &saved.code.to_le_bytes());
    }

    fn tests(&mut self, r: &mut Record) {
        let p = self.p;
        for i in 0..usize::from(r.0[2]) {
            let at = 4 + 4 * i;
            let Answer::Told(t) = self.answer(Call::Test { p, kind: r.0[at], card: r.0[at + 1] }) else {
                unreachable!()
            };
            self.must("the move test hands the position back", t.position == p);
            r.set(at + 2, &[t.refusal, u8::from(t.yes)]);
        }
    }

    fn finds(&mut self, r: &mut Record) {
        let p = self.p;
        for i in 0..usize::from(r.0[2]) {
            let at = 4 + 4 * i;
            let Answer::Located(f) = self.answer(Call::Find { p, card: r.0[at] }) else { unreachable!() };
            self.must("find hands the position back", f.position == p);
            r.set(at + 1, &[f.refusal, u8::from(f.found), f.place]);
        }
    }

    fn offsets(&mut self, r: &mut Record) {
        let p = self.p;
        for i in 0..usize::from(r.0[2]) {
            let at = 4 + 3 * i;
            let Answer::Offset(o) = self.answer(Call::Offset { p, n: r.0[at] }) else { unreachable!() };
            self.must("offset hands the position back", o.position == p);
            r.set(at + 1, &[o.refusal, o.offset]);
        }
    }

    fn ladder(&mut self, r: &mut Record) {
        let p = self.p;
        let call = Call::Resume { deal: p.deal.to_vec(), step: r.0[3], code: r.long(4) };
        let Answer::Started(other) = self.answer(call) else { unreachable!() };
        let q = other.position;
        let Answer::Ranked(there) = self.answer(Call::Ladder { p, q }) else { unreachable!() };
        let Answer::Ranked(back) = self.answer(Call::Ladder { p: q, q: p }) else { unreachable!() };
        self.must("the ladder hands both positions back", (there.first, there.second) == (p, q));
        self.must("the ladder answers alike both ways", (there.refusal, there.same) == (back.refusal, back.same));
        r.set(1, &[there.refusal, u8::from(there.same)]);
    }

    fn cursors(&mut self, r: &mut Record) {
        for i in 0..usize::from(r.0[2]) {
            let at = 4 + 5 * i;
            let cursor = Cursor { len: r.0[at], step: r.0[at + 1], offset: r.0[at + 2] };
            let Answer::Turned(t) = self.answer(Call::DealOnce { cursor }) else { unreachable!() };
            let Answer::TurnedLent(refusal, lent) = self.answer(Call::DealOnceLent { cursor }) else { unreachable!() };
            self.must("deal_once answers alike given and lent", (refusal, lent) == (t.refusal, t.cursor));
            self.must("deal_once keeps length and step", Cursor { offset: cursor.offset, ..t.cursor } == cursor);
            r.set(at + 3, &[t.refusal, t.cursor.offset]);
        }
    }
}

/// Tag 14.
fn set(p: &mut Position, r: &Record) {
    let (index, value) = (usize::from(r.0[3]), r.0[4]);
    match r.0[2] {
        0 => p.deal[index] = value,
        1 => p.step = value,
        2 => p.counts[index] = value,
        3 => p.heights[index] = value,
        4 => p.deck[index] = value,
        5 => p.left = value,
        6 => p.offset = value,
        _ => p.visible = p.visible & !(1 << index) | u64::from(value) << index,
    }
}
