//! One trait over every public call, and the calls and answers as values, so that any two sides can be held together.
use model::types::*;

/// "Refused", from a side that has no numbers for it: it agrees with every refusal.
pub const NO_NUMBER: u8 = 255;
/// The side panicked: it agrees with nothing.
pub const PANICKED: u8 = 254;

/// A side: one method for each public call. `None` says that this side defines no answer there; it then leaves lent memory as
/// it is. Otherwise the answer is whole, and lent memory holds what the call leaves in it.
pub trait Engine {
    fn name(&self) -> &'static str;

    fn deal(&mut self, deal: &[u8], step: u8) -> Option<Started>;
    fn resume(&mut self, deal: &[u8], step: u8, code: u64) -> Option<Started>;
    fn save(&mut self, p: &Position) -> Option<Saved>;
    fn masks(&mut self, p: &Position, pruned: bool) -> Option<Masked>;
    fn test(&mut self, p: &Position, kind: u8, card: u8) -> Option<Told>;
    /// The length of the written front that is handed back.
    fn list(&mut self, p: &Position, pruned: bool, buffer: &mut [u16]) -> Option<usize>;
    /// The listing's twin for a buffer of `room` slots.
    fn list_count(&mut self, p: &Position, pruned: bool, room: usize) -> Option<Listed>;
    fn is_win(&mut self, p: &Position) -> Option<Told>;
    fn is_sure_win(&mut self, p: &Position) -> Option<Told>;
    fn heights(&mut self, p: &Position) -> Option<Heights>;
    fn deck(&mut self, p: &Position) -> Option<DeckView>;
    fn find(&mut self, p: &Position, card: u8) -> Option<Located>;
    fn offset(&mut self, p: &Position, n: u8) -> Option<Offset>;
    fn face_up(&mut self, p: &Position, buffer: &mut [u8]) -> Option<Piled>;
    fn do_move(&mut self, p: &Position, history: &mut [u16], count: usize, kind: u8, card: u8) -> Option<Moved>;
    fn undo(&mut self, p: &Position, history: &mut [u16], count: usize) -> Option<Undone>;
    fn ladder(&mut self, p: &Position, q: &Position) -> Option<Ranked>;
    fn deal_once(&mut self, cursor: Cursor) -> Option<Turned>;
    /// The refusal; the cursor is lent.
    fn deal_once_lent(&mut self, cursor: &mut Cursor) -> Option<u8>;
}

/// A call with all that is given and lent.
#[derive(Clone, PartialEq, Eq, Debug)]
pub enum Call {
    Deal { deal: Vec<u8>, step: u8 },
    Resume { deal: Vec<u8>, step: u8, code: u64 },
    Save { p: Position },
    Masks { p: Position, pruned: bool },
    Test { p: Position, kind: u8, card: u8 },
    List { p: Position, pruned: bool, buffer: Vec<u16> },
    ListCount { p: Position, pruned: bool, room: usize },
    IsWin { p: Position },
    IsSureWin { p: Position },
    Heights { p: Position },
    Deck { p: Position },
    Find { p: Position, card: u8 },
    Offset { p: Position, n: u8 },
    FaceUp { p: Position, buffer: Vec<u8> },
    Move { p: Position, history: Vec<u16>, count: usize, kind: u8, card: u8 },
    Undo { p: Position, history: Vec<u16>, count: usize },
    Ladder { p: Position, q: Position },
    DealOnce { cursor: Cursor },
    DealOnceLent { cursor: Cursor },
}

/// An answer with what lent memory holds after the call.
#[derive(Clone, PartialEq, Eq, Debug)]
pub enum Answer {
    Started(Started),
    Saved(Saved),
    Masked(Masked),
    Told(Told),
    Front(usize, Vec<u16>),
    Listed(Listed),
    Heights(Heights),
    DeckView(DeckView),
    Located(Located),
    Offset(Offset),
    Piled(Piled, Vec<u8>),
    Moved(Moved, Vec<u16>),
    Undone(Undone, Vec<u16>),
    Ranked(Ranked),
    Turned(Turned),
    TurnedLent(u8, Cursor),
}

impl Call {
    pub fn name(&self) -> &'static str {
        match self {
            Self::Deal { .. } => "deal",
            Self::Resume { .. } => "resume",
            Self::Save { .. } => "save",
            Self::Masks { pruned: false, .. } => "masks unpruned",
            Self::Masks { pruned: true, .. } => "masks pruned",
            Self::Test { .. } => "move test",
            Self::List { pruned: false, .. } => "listing unpruned",
            Self::List { pruned: true, .. } => "listing pruned",
            Self::ListCount { pruned: false, .. } => "listing's count unpruned",
            Self::ListCount { pruned: true, .. } => "listing's count pruned",
            Self::IsWin { .. } => "is_win",
            Self::IsSureWin { .. } => "is_sure_win",
            Self::Heights { .. } => "heights",
            Self::Deck { .. } => "deck",
            Self::Find { .. } => "find",
            Self::Offset { .. } => "offset",
            Self::FaceUp { .. } => "face-up piles",
            Self::Move { .. } => "move",
            Self::Undo { .. } => "undo",
            Self::Ladder { .. } => "ladder",
            Self::DealOnce { .. } => "deal_once",
            Self::DealOnceLent { .. } => "deal_once, lent",
        }
    }

    /// How large the input is: the smallest one of a difference is kept.
    pub fn size(&self) -> (usize, Vec<u64>) {
        let out_of_place = |deal: &[u8]| deal.iter().enumerate().filter(|&(k, &c)| k != usize::from(c)).count();
        let position = |p: &Position, rest: &[u64]| {
            let cards = usize::from(p.left) + p.counts.iter().map(|&n| usize::from(n)).sum::<usize>();
            let mut numbers = vec![if model::proper::proper(p) { model::code::code(p) } else { 0 }];
            numbers.extend(rest);
            (2 * out_of_place(&p.deal) + cards, numbers)
        };
        match self {
            Self::Deal { deal, step } => (out_of_place(deal), vec![u64::from(*step)]),
            Self::Resume { deal, step, code } => (out_of_place(deal), vec![*code, u64::from(*step)]),
            Self::Save { p }
            | Self::Masks { p, .. }
            | Self::ListCount { p, .. }
            | Self::IsWin { p }
            | Self::IsSureWin { p }
            | Self::Heights { p }
            | Self::Deck { p }
            | Self::Ladder { p, .. } => position(p, &[]),
            Self::List { p, buffer, .. } => position(p, &[buffer.len() as u64]),
            Self::FaceUp { p, buffer } => position(p, &[buffer.len() as u64]),
            Self::Test { p, kind, card } => position(p, &[u64::from(*card), u64::from(*kind)]),
            Self::Find { p, card } => position(p, &[u64::from(*card)]),
            Self::Offset { p, n } => position(p, &[u64::from(*n)]),
            Self::Move { p, count, kind, card, .. } => {
                position(p, &[u64::from(*card), u64::from(*kind), *count as u64])
            }
            Self::Undo { p, history, count } => {
                let last = count.checked_sub(1).and_then(|at| history.get(at)).copied().unwrap_or(0);
                position(p, &[u64::from(last), *count as u64])
            }
            Self::DealOnce { cursor } | Self::DealOnceLent { cursor } => {
                (usize::from(cursor.len), vec![u64::from(cursor.step), u64::from(cursor.offset)])
            }
        }
    }
}

impl Answer {
    /// The number given; none for the listing, which hands back a front alone.
    pub fn refusal(&self) -> Option<u8> {
        Some(match self {
            Self::Started(a) => a.refusal,
            Self::Saved(a) => a.refusal,
            Self::Masked(a) => a.refusal,
            Self::Told(a) => a.refusal,
            Self::Front(..) => return None,
            Self::Listed(a) => a.refusal,
            Self::Heights(a) => a.refusal,
            Self::DeckView(a) => a.refusal,
            Self::Located(a) => a.refusal,
            Self::Offset(a) => a.refusal,
            Self::Piled(a, _) => a.refusal,
            Self::Moved(a, _) => a.refusal,
            Self::Undone(a, _) => a.refusal,
            Self::Ranked(a) => a.refusal,
            Self::Turned(a) => a.refusal,
            Self::TurnedLent(refusal, _) => *refusal,
        })
    }
}

/// The answer of a side to a call; none where it has none.
pub fn ask(side: &mut dyn Engine, call: &Call) -> Option<Answer> {
    Some(match call {
        Call::Deal { deal, step } => Answer::Started(side.deal(deal, *step)?),
        Call::Resume { deal, step, code } => Answer::Started(side.resume(deal, *step, *code)?),
        Call::Save { p } => Answer::Saved(side.save(p)?),
        Call::Masks { p, pruned } => Answer::Masked(side.masks(p, *pruned)?),
        Call::Test { p, kind, card } => Answer::Told(side.test(p, *kind, *card)?),
        Call::List { p, pruned, buffer } => {
            let mut buffer = buffer.clone();
            Answer::Front(side.list(p, *pruned, &mut buffer)?, buffer)
        }
        Call::ListCount { p, pruned, room } => Answer::Listed(side.list_count(p, *pruned, *room)?),
        Call::IsWin { p } => Answer::Told(side.is_win(p)?),
        Call::IsSureWin { p } => Answer::Told(side.is_sure_win(p)?),
        Call::Heights { p } => Answer::Heights(side.heights(p)?),
        Call::Deck { p } => Answer::DeckView(side.deck(p)?),
        Call::Find { p, card } => Answer::Located(side.find(p, *card)?),
        Call::Offset { p, n } => Answer::Offset(side.offset(p, *n)?),
        Call::FaceUp { p, buffer } => {
            let mut buffer = buffer.clone();
            Answer::Piled(side.face_up(p, &mut buffer)?, buffer)
        }
        Call::Move { p, history, count, kind, card } => {
            let mut history = history.clone();
            Answer::Moved(side.do_move(p, &mut history, *count, *kind, *card)?, history)
        }
        Call::Undo { p, history, count } => {
            let mut history = history.clone();
            Answer::Undone(side.undo(p, &mut history, *count)?, history)
        }
        Call::Ladder { p, q } => Answer::Ranked(side.ladder(p, q)?),
        Call::DealOnce { cursor } => Answer::Turned(side.deal_once(*cursor)?),
        Call::DealOnceLent { cursor } => {
            let mut cursor = *cursor;
            Answer::TurnedLent(side.deal_once_lent(&mut cursor)?, cursor)
        }
    })
}

/// Whether two answers agree. A refusal without a number agrees with every refusal of the same call that leaves the rest alike.
pub fn agree(a: &Answer, b: &Answer) -> bool {
    match (a, b) {
        (Answer::Started(x), Answer::Started(y)) if x.refusal == NO_NUMBER || y.refusal == NO_NUMBER => {
            x.refusal != 0 && y.refusal != 0 && x.refusal != PANICKED && y.refusal != PANICKED
        }
        (Answer::Moved(x, s), Answer::Moved(y, t)) if x.refusal == NO_NUMBER || y.refusal == NO_NUMBER => {
            x.refusal != 0 && y.refusal != 0 && Moved { refusal: y.refusal, ..*x } == *y && s == t
        }
        _ => a == b,
    }
}
