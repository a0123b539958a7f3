//! The positions that both sides run on: reached by play, or any proper ones; half of each with step 1, half with step 3.
use crate::ours;
use compare::make;
use compare::rng::Rng;
use compare::walk::kind_and_card;
use lonelybot::harness::Oracle;
use model::types::Position;

pub const COUNT: usize = 8192;

/// One position for both sides, and what the calls are asked there.
pub struct Case {
    pub rust: Oracle,
    pub p: ours::Position,
    pub asked: Asked,
}

/// A legal move, the save code, a number of deals, a card of the deck's 24.
#[repr(C)]
#[derive(Clone, Copy)]
pub struct Asked {
    pub kind: u8,
    pub card: u8,
    pub code: u64,
    pub deals: u8,
    pub deck_card: u8,
}

fn case(rng: &mut Rng, p: &Position) -> Option<Case> {
    let moves = model::legal::listing(&model::legal::unpruned(p));
    if moves.is_empty() {
        return None;
    }
    let (kind, card) = kind_and_card(rng.pick(&moves));
    let asked = Asked {
        kind,
        card,
        code: model::code::code(p),
        deals: rng.byte_below(30),
        deck_card: p.deal[28 + rng.below(24)],
    };
    Some(Case { rust: compare::rust::at(p), p: p.into(), asked })
}

/// Random games, from each some of the positions on the way.
fn played(rng: &mut Rng, step: u8, count: usize) -> Vec<Case> {
    let mut cases = vec![];
    while cases.len() < count {
        let mut p = model::code::fresh(&make::shuffled(rng), step);
        for _ in 0..150 {
            let moves = model::legal::listing(&model::legal::unpruned(&p));
            if moves.is_empty() {
                break;
            }
            if rng.once_in(10) && cases.len() < count {
                cases.extend(case(rng, &p));
            }
            let (kind, card) = kind_and_card(rng.pick(&moves));
            p = model::play::after(&p, kind, card);
        }
    }
    cases
}

fn any(rng: &mut Rng, step: u8, count: usize) -> Vec<Case> {
    let mut cases = vec![];
    while cases.len() < count {
        let p = Position { step, ..make::proper_position(rng) };
        cases.extend(case(rng, &p));
    }
    cases
}

/// Both kinds. The steps are mixed, so that no call knows which comes.
pub fn sets(seed: u64) -> [(&'static str, Vec<Case>); 2] {
    let rng = &mut Rng::new(seed);
    let half = COUNT / 2;
    let mut by_play = played(rng, 1, half);
    by_play.extend(played(rng, 3, half));
    rng.shuffle(&mut by_play);
    let mut proper = any(rng, 1, half);
    proper.extend(any(rng, 3, half));
    rng.shuffle(&mut proper);
    [("play", by_play), ("any", proper)]
}

/// As plain bytes, so that a run under callgrind need not make them anew.
pub fn write(cases: &[Case]) -> Vec<u8> {
    let mut bytes = vec![];
    for case in cases {
        let one = (case.p, case.asked);
        let start = (&one as *const (ours::Position, Asked)).cast::<u8>();
        bytes.extend(unsafe { core::slice::from_raw_parts(start, SIZE) });
    }
    bytes
}

const SIZE: usize = size_of::<(ours::Position, Asked)>();

pub fn read(bytes: &[u8]) -> Vec<Case> {
    let one = |part: &[u8]| {
        let (p, asked) = unsafe { part.as_ptr().cast::<(ours::Position, Asked)>().read_unaligned() };
        Case { rust: compare::rust::at(&(&p).into()), p, asked }
    };
    bytes.chunks(SIZE).map(one).collect()
}
