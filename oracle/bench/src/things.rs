//! The things that are measured: each is done by both sides on one case.
use crate::cases::{Asked, Case};
use crate::ours;
use core::hint::black_box;
use core::ops::ControlFlow;

pub struct Thing {
    pub name: &'static str,
    /// What the Rust runs.
    pub rust: &'static str,
    /// Our time may be this many times the Rust's.
    pub target: Option<f64>,
    pub both: [fn(&mut [Case]); 2],
}

/// A loop over the cases for each side, compiled with its call.
macro_rules! things {
    ($($name:literal, $rust:literal, $target:expr, |$a:ident| $ours:expr, |$b:ident| $theirs:expr;)*) => {
        pub const THINGS: &[Thing] = &[$(Thing {
            name: $name,
            rust: $rust,
            target: $target,
            both: [
                |cases| for $a in cases.iter_mut() { black_box($ours); },
                |cases| for $b in cases.iter_mut() { black_box($theirs); },
            ],
        }),*];
    };
}

#[inline(never)]
fn rust_nothing(c: &Case) -> u64 {
    c.rust.visible()
}

#[inline(never)]
fn rust_list(c: &Case) -> usize {
    let mut out = [0u16; 24];
    let mut n = 0;
    let _ = c.rust.0.gen_moves::<false>().iter_moves(|m| {
        out[n] = lonelybot::harness::number_of(m);
        n += 1;
        ControlFlow::<()>::Continue(())
    });
    black_box(&out);
    n
}

fn list(c: &Case) -> usize {
    let mut out = [0u16; 24];
    let n = unsafe { ours::inside_list(ours::inside_masks(c.p), out.as_mut_ptr(), out.len()) };
    black_box(&out);
    n
}

fn piles(c: &Case) -> u8 {
    let mut out = [0u8; 91];
    let n = unsafe { ours::inside_piles(c.p, out.as_mut_ptr(), out.len()) };
    black_box(&out);
    n
}

fn move_and_undo(c: &Case) -> ours::Position {
    let Asked { kind, card, .. } = c.asked;
    unsafe {
        let step = ours::inside_do_move(c.p, kind, card);
        ours::inside_undo_move(step.position, step.byte, kind, card)
    }
}

fn rust_move_and_undo(c: &mut Case) {
    let Asked { kind, card, .. } = c.asked;
    let (byte, _) = c.rust.do_move(kind, card);
    c.rust.undo_move(kind, card, byte);
}

/// It comes last, since it puts the stored offset into the state.
fn rust_resume(c: &mut Case) -> bool {
    c.rust.decode(c.asked.code);
    c.rust.is_valid()
}

/// Both sides give the same answers on a case, so that they are measured at the same work.
pub fn agree(c: &Case) -> bool {
    let same = |ours: ours::Masks, pruned: bool| {
        let rust = c.rust.masks(pruned);
        [ours.reveal, ours.pile_stack, ours.deck_pile, ours.deck_stack, ours.stack_pile]
            == [rust.reveal, rust.pile_stack, rust.deck_pile, rust.deck_stack, rust.stack_pile]
    };
    let (found, place) = c.rust.find_card(c.asked.deck_card);
    let back = move_and_undo(c);
    unsafe {
        ours::inside_is_proper(c.p)
            && same(ours::inside_masks(c.p), false)
            && same(ours::inside_pruned(c.p), true)
            && ours::inside_is_valid_move(c.p, c.asked.kind, c.asked.card)
            && ours::inside_save(c.p) == c.asked.code
            && c.rust.code() == c.asked.code
            && ours::inside_offset(c.p, c.asked.deals) == c.rust.offset(c.asked.deals)
            && ours::inside_find(c.p, c.asked.deck_card) == if found { place } else { 255 }
            && (back.counts, back.heights, back.visible) == (c.p.counts, c.p.heights, c.p.visible)
            && ours::inside_resume(c.p.step, c.p.deal.as_ptr(), 52, c.asked.code).refusal == 0
    }
}

things! {
    "nothing", "reads the visible mask", None, |c| unsafe { ours::inside_nothing(c.p) }, |c| rust_nothing(c);
    "judge", "gen_moves::<false>", Some(6.0), |c| unsafe { ours::inside_is_proper(c.p) }, |c| c.rust.0.gen_moves::<false>();
    "masks", "gen_moves::<false>", Some(1.0), |c| unsafe { ours::inside_masks(c.p) }, |c| c.rust.0.gen_moves::<false>();
    "pruned masks", "gen_moves::<true>", Some(1.0), |c| unsafe { ours::inside_pruned(c.p) }, |c| c.rust.0.gen_moves::<true>();
    "list", "gen_moves::<false>, iter_moves", None, |c| list(c), |c| rust_list(c);
    "move test", "is_valid_move", None, |c| unsafe { ours::inside_is_valid_move(c.p, c.asked.kind, c.asked.card) }, |c| c.rust.is_valid_move(c.asked.kind, c.asked.card);
    "move and undo", "do_move, undo_move", Some(1.5), |c| move_and_undo(c), |c| rust_move_and_undo(c);
    "save", "encode", Some(1.0), |c| unsafe { ours::inside_save(c.p) }, |c| c.rust.code();
    "face-up piles", "compute_visible_piles", Some(1.0), |c| piles(c), |c| c.rust.0.compute_visible_piles();
    "offset", "offset", Some(1.0), |c| unsafe { ours::inside_offset(c.p, c.asked.deals) }, |c| c.rust.offset(c.asked.deals);
    "find", "find_card", None, |c| unsafe { ours::inside_find(c.p, c.asked.deck_card) }, |c| c.rust.find_card(c.asked.deck_card);
    "resume", "decode, is_valid", Some(0.5), |c| unsafe { ours::inside_resume(c.p.step, c.p.deal.as_ptr(), 52, c.asked.code) }, |c| rust_resume(c);
}
