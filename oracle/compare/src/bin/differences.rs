//! Each difference between the Rust and document 01, on its smallest input: what the Rust does, and what the model answers.
//! Run it in both profiles: some of the Rust's answers are panics where arithmetic is checked.
use compare::make::deal_w;
use compare::rust;
use lonelybot::harness::Oracle;
use model::calls;
use model::types::{Cursor, Position};
use std::panic::{catch_unwind, AssertUnwindSafe};

/// The Rust's answer in words, or that it panicked.
fn rust_says(answer: impl FnOnce() -> String) -> String {
    catch_unwind(AssertUnwindSafe(answer)).unwrap_or_else(|_| "panics".to_string())
}

fn row(name: &str, input: &str, rust: String, model: String) {
    println!("{name}\n  input  {input}\n  Rust   {rust}\n  01     {model}");
}

fn refusal(answer: u8) -> String {
    match answer {
        0 => "accepted".to_string(),
        number => format!("refused {number}"),
    }
}

/// `SolitaireEngine::decode` of a code of W, step 3.
fn resume(name: &str, code: u64) {
    let rust = rust_says(|| match Oracle::checked_decode(3, &deal_w(), code) {
        None => "refused".to_string(),
        Some(o) => format!("accepted: {:?}", rust::read(&o, &deal_w(), 3)),
    });
    let model = refusal(calls::resume(&deal_w(), 3, code).refusal);
    row(name, &format!("resume {code:#018x} of W, step 3"), rust, model);
}

fn at(deal: &[u8; 52], step: u8, code: u64) -> Position {
    let started = calls::resume(deal, step, code);
    assert_eq!(started.refusal, 0, "the model refuses {code:#x}");
    started.position
}

fn find() {
    let p = model::code::fresh(&deal_w(), 3);
    let rust = rust_says(|| format!("{:?}", rust::at(&p).find_card(0)));
    let model = calls::find(&p, 0);
    row("D1", "find card 0 on fresh W, step 3", rust, format!("({}, {})", model.found, model.place));
}

/// The masks of a state whose heights a code sets above 13: `decode` itself does not judge.
fn high_masks() {
    for (heights, pruned) in [(0x000E, false), (0x000F, false), (0xEEEE, true), (0xFFFF, true)] {
        let rust = rust_says(|| format!("{:x?}", Oracle::at(3, &deal_w(), heights).masks(pruned)));
        let model = refusal(calls::resume(&deal_w(), 3, heights).refusal);
        let pruned = if pruned { "pruned" } else { "unpruned" };
        row("D7", &format!("{pruned} masks at {heights:#x} of W, step 3, `decode` unjudged"), rust, model);
    }
}

fn equivalent(name: &str, input: &str, p: &Position, q: &Position) {
    let rust = rust_says(|| format!("{}", rust::at(p).equivalent_to(&rust::at(q))));
    row(name, input, format!("equivalent_to is {rust}"), format!("same is {}", calls::ladder(p, q).same));
}

/// Two deals whose buried cards 1 and 3 stand in each other's places, and two steps.
fn two_games() {
    let mut other = deal_w();
    other.swap(1, 3);
    let fresh = |deal: &[u8; 52]| model::code::fresh(deal, 3);
    equivalent("D8", "fresh W, and fresh W with places 1 and 3 swapped, step 3", &fresh(&deal_w()), &fresh(&other));
    let won = |step| at(&deal_w(), step, 0xDDDD);
    equivalent("D8", "0xDDDD of W, step 1 and step 2", &won(1), &won(2));
}

/// W with card 48, a king, at pile 0's base: places 0 and 48 swapped.
fn base_king() -> [u8; 52] {
    let mut deal = deal_w();
    deal.swap(0, 48);
    deal
}

/// The last king goes up, `hidden_clear`, and comes back by undo.
fn cleared() {
    let deal = base_king();
    let p = at(&deal, 3, 0x0001_DDDC);
    let reveal = |clear: bool| {
        let mut o = rust::at(&p);
        let (byte, _) = o.do_move(1, 48);
        if clear {
            o.hidden_clear();
        }
        o.undo_move(1, 48, byte);
        o.masks(false).reveal
    };
    let rust = rust_says(|| format!("reveal mask {:#x}; {:#x} without hidden_clear", reveal(true), reveal(false)));
    let model = format!("reveal mask {:#x}", calls::masks(&p).masks.reveal);
    row("D9", "0x1DDDC of W with places 0 and 48 swapped, step 3: PileStack 48, hidden_clear, undo", rust, model);
    equivalent("D11", "0x1DDDC and 0x0DDDC of the same deal", &p, &at(&deal, 3, 0x0000_DDDC));
}

/// Steps that document 01 refuses.
fn high_steps() {
    for (step, offset) in [(232, 23), (233, 23), (255, 1)] {
        let code = 0x00FF_FFFF_9D7F_0000 | offset << 56;
        let rust = rust_says(|| format!("offset(1) is {}", Oracle::at(step, &deal_w(), code).offset(1)));
        let model = refusal(calls::deal_once(Cursor { len: 24, step, offset: offset as u8 }).refusal);
        row("D10", &format!("24 left, offset {offset}, step {step}"), rust, model);
    }
}

/// What the Rust does not judge at all: a deal, a move, an undo.
fn unjudged() {
    for (place, card) in [(51, 50), (51, 52)] {
        let mut deal = deal_w();
        deal[place] = card;
        let rust = rust_says(|| format!("accepted: code {:#x}", Oracle::fresh(3, &deal).code()));
        let model = refusal(calls::deal(&deal, 3).refusal);
        row("D12", &format!("deal W with card {card} at place {place}, step 3"), rust, model);
    }
    let p = model::code::fresh(&deal_w(), 3);
    let rust = rust_says(|| {
        let mut o = rust::at(&p);
        let (byte, extra) = o.do_move(4, 9);
        format!("do_move makes it: byte {byte}, {extra:?}, code {:#x}", o.code())
    });
    row("D13", "Reveal 9 on fresh W, step 3", rust, refusal(calls::do_move(&p, &mut [0], 0, 4, 9).refusal));
    let rust = rust_says(|| {
        let mut o = rust::at(&p);
        o.undo_move(1, 0, 0);
        format!("heights {:?}", o.heights())
    });
    row("D14", "undo of PileStack 0, byte 0, on fresh W, step 3", rust, refusal(calls::undo(&p, &[64], 1).refusal));
}

fn main() {
    std::panic::set_hook(Box::new(|_| ()));
    println!("overflow checks: {}", if cfg!(debug_assertions) { "on" } else { "off" });
    find();
    resume("D2", 0x18FF_FFFF_9D80_0000);
    resume("D3", 0x03FF_FFFF_9D7F_0000);
    resume("D3", 0x19FF_FFFF_9D7F_0000);
    resume("D4", 0x0900_000F_0000_7777);
    resume("D5", 0x18FF_FFFF_9D7F_0001);
    resume("D6", 0x04F0_0000_0000_BBBB);
    resume("D7", 0x18FF_FFFF_9D7F_000E);
    resume("D7", 0x18FF_FFFF_9D7F_000F);
    high_masks();
    two_games();
    cleared();
    high_steps();
    unjudged();
}
