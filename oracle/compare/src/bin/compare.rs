//! compare PART [COUNT] [SEED]: holds every side against every other and prints counts and differences.
//!   play        COUNT games of random moves, steps 1 to 24 in turn, each played back to its start by undo
//!   positions   COUNT proper positions that play need not reach
//!   refusals    COUNT positions with a number or two spoilt, and COUNT wrong deals
//!   bytes       COUNT positions of any bytes, COUNT proper ones with one byte changed and COUNT with one bit changed
//!   limits      COUNT positions; buffers, histories, deals and numbers of every size around their limits
//!   codes       COUNT codes to resume, right and wrong
//!   dealing     every step, length, offset and n (COUNT and SEED are not used)
//!   cursors     every cursor of three bytes, given and lent (COUNT and SEED are not used)
//!   entries     COUNT positions, all 65,536 entries on each: every side's undo, and the model's against a blind search
//!   all         each of these but cursors
//! It leaves with 1 where a difference is not one of docs/DIFFERENCES.md.
use compare::engine::Call;
use compare::rng::Rng;
use compare::tally::Tally;
use compare::walk::Walk;
use compare::{make, rust, sides};
use lonelybot::harness::Oracle;
use model::types::{Cursor, Position};
use model::undo::{earlier, earlier_by_search, parts, same};

/// One game: random moves to the end or 150 of them, then all undone. The Rust's state runs along and is never built anew.
fn game(walk: &mut Walk, step: u8) {
    let deal = make::shuffled(&mut walk.rng);
    walk.ask(Call::Deal { deal: deal.to_vec(), step });
    let mut p = model::code::fresh(&deal, step);
    let mut running = Oracle::fresh(step, &deal);
    let mut history = vec![0; 150];
    let mut passed: Vec<Position> = vec![];
    while passed.len() < history.len() {
        walk.read(&p);
        walk.moves(&p);
        let listed = model::legal::listing(&model::legal::unpruned(&p));
        // seldom back from a foundation, or the game goes to and fro
        let onward: Vec<u16> = listed.iter().copied().filter(|m| m / 64 != 3).collect();
        let from = if onward.is_empty() || walk.rng.once_in(8) { &listed } else { &onward };
        if from.is_empty() {
            break;
        }
        let number = walk.rng.pick(from);
        let count = passed.len();
        let moved = walk.play(&p, &mut history, count, number);
        passed.push(p);
        let (byte, kind, card) = parts(history[passed.len() - 1]);
        let told = running.do_move(kind, card);
        let agrees = (told.0, rust::turned(told.1)) == (byte, moved.turned);
        p = moved.position;
        let alike = same(&rust::read(&running, &deal, step), &p);
        walk.tally.must("moves of one running Rust game", agrees && alike, || format!("{p:?}"));
    }
    while let Some(before) = passed.pop() {
        let count = passed.len() + 1;
        walk.take_back(&before, &p, history.clone(), count);
        let (byte, kind, card) = parts(history[count - 1]);
        running.undo_move(kind, card, byte);
        p = before;
        let alike = same(&rust::read(&running, &deal, step), &p);
        walk.tally.must("undos of one running Rust game", alike, || format!("{p:?}"));
    }
    walk.tally.note(&format!("games of step {step:>2}"), 1);
}

fn play(walk: &mut Walk, games: u64) {
    for g in 0..games {
        game(walk, 1 + (g % 24) as u8);
    }
}

fn positions(walk: &mut Walk, count: u64) {
    for _ in 0..count {
        let p = make::proper_position(&mut walk.rng);
        walk.read(&p);
        walk.moves(&p);
        walk.tally.note("proper positions that play need not reach", 1);
    }
}

fn refusals(walk: &mut Walk, count: u64) {
    for _ in 0..count {
        let p = make::proper_position(&mut walk.rng);
        let q = make::spoilt(&mut walk.rng, &p);
        walk.tally.note(if model::proper::proper(&q) { "spoilt, yet proper" } else { "spoilt, not proper" }, 1);
        walk.read(&q);
        let mut deal = q.deal.to_vec();
        if walk.rng.once_in(4) {
            deal.resize(walk.rng.below(60), 0);
        }
        walk.ask(Call::Deal { deal: deal.clone(), step: q.step });
        let code = make::some_code(&mut walk.rng, &p);
        walk.ask(Call::Resume { deal, step: q.step, code });
    }
}

fn bytes(walk: &mut Walk, count: u64) {
    for _ in 0..count {
        walk.bytes();
    }
}

fn limits(walk: &mut Walk, count: u64) {
    for i in 0..count {
        let p = make::proper_position(&mut walk.rng);
        let p = if i % 8 == 7 { make::byte_changed(&mut walk.rng, &p) } else { p };
        walk.limits(&p);
    }
}

fn codes(walk: &mut Walk, count: u64) {
    for i in 0..count {
        let mut p = make::proper_position(&mut walk.rng);
        if i % 4 == 0 {
            p = model::code::fresh(&make::deal_w(), p.step);
        }
        let code = make::some_code(&mut walk.rng, &p);
        let refusal = model::calls::resume(&p.deal, p.step, code).refusal;
        walk.tally.note(&format!("codes that the model answers with {refusal}"), 1);
        walk.ask(Call::Resume { deal: p.deal.to_vec(), step: p.step, code });
    }
}

/// Cursors of every length, step and offset, and what the Rust's deck of that length says.
fn dealing(walk: &mut Walk) {
    for len in 0..=26 {
        for step in 0..=26 {
            for offset in 0..=27 {
                let cursor = Cursor { len, step, offset };
                walk.ask(Call::DealOnce { cursor });
                walk.ask(Call::DealOnceLent { cursor });
                if model::calls::deal_once(cursor).refusal == 0 {
                    rounds(&mut walk.tally, cursor);
                }
            }
        }
    }
}

fn cursors(walk: &mut Walk) {
    for number in 0u32..1 << 24 {
        let [len, step, offset, _] = number.to_le_bytes();
        let cursor = Cursor { len, step, offset };
        walk.ask(Call::DealOnce { cursor });
        walk.ask(Call::DealOnceLent { cursor });
    }
}

/// `offset(n)` for every n, and the available places, of a deck that has the first cards of its 24 left.
fn rounds(tally: &mut Tally, cursor: Cursor) {
    let [len, step, offset] = [cursor.len, cursor.step, cursor.offset].map(usize::from);
    let code = ((1u64 << len) - 1) << 32 | (offset as u64) << 56;
    let o = Oracle::at(cursor.step, &make::deal_w(), code);
    let mut at = offset;
    for n in 0..=255 {
        tally.must("offset(n) of every step, length, offset and n", usize::from(o.offset(n)) == at, || {
            format!("{cursor:?} {n}")
        });
        at = model::dealing::deal_once(len, step, at);
    }
    let places = model::dealing::available_places(len, step, offset);
    let mask = (0..len).filter(|&k| places[k]).fold(0, |mask, k| mask | 1u64 << (28 + k));
    tally.must("available places of every step, length and offset", o.available() == mask, || format!("{cursor:?}"));
}

/// All entries on one position: the one candidate against every position near.
fn entries(walk: &mut Walk, count: u64) {
    for i in 0..count {
        let mut p = make::proper_position(&mut walk.rng);
        // half of them after a move, so that some entry fits
        let listed = model::legal::listing(&model::legal::unpruned(&p));
        if i % 2 == 0 && !listed.is_empty() {
            let number = walk.rng.pick(&listed);
            p = walk.play(&p, &mut vec![0], 0, number).position;
        }
        for kind in 0..8 {
            for card in 0..64 {
                entries_of(walk, &p, kind, card);
            }
        }
    }
}

fn entries_of(walk: &mut Walk, p: &Position, kind: u8, card: u8) {
    let is_move = model::undo::is_kind_and_card(kind, card);
    let found = if is_move { earlier_by_search(p, kind, card) } else { vec![] };
    for byte in 0..128 {
        let last = model::undo::entry(byte, kind, card);
        let by_search: Vec<_> = found.iter().filter(|(entry, _)| *entry == last).collect();
        let by_candidate = earlier(p, last);
        let alike = match (by_search.as_slice(), &by_candidate) {
            ([], None) => true,
            ([(_, q)], Some(r)) => same(q, r),
            _ => false,
        };
        walk.tally.must("entries undone by the model as by a blind search", alike, || format!("{p:?} {last}"));
        walk.tally.note("of these entries accepted", u64::from(by_candidate.is_some()));
        walk.ask(Call::Undo { p: *p, history: vec![last], count: 1 });
    }
}

fn main() {
    std::panic::set_hook(Box::new(|info| {
        // the Rust's own panics are answers; the others are faults of this program
        if !info.location().is_some_and(|at| at.file().contains("lonelybot")) {
            eprintln!("{info}");
        }
    }));
    let words: Vec<String> = std::env::args().skip(1).collect();
    let number = |at: usize, usual: u64| words.get(at).map_or(usual, |w| w.parse().expect("a number"));
    let (count, seed) = (number(1, 100), number(2, 1));
    let mut walk = Walk { sides: sides::all(), tally: Tally::default(), rng: Rng::new(seed) };
    match words.first().map(String::as_str) {
        Some("play") => play(&mut walk, count),
        Some("positions") => positions(&mut walk, count),
        Some("refusals") => refusals(&mut walk, count),
        Some("bytes") => bytes(&mut walk, count),
        Some("limits") => limits(&mut walk, count),
        Some("codes") => codes(&mut walk, count),
        Some("dealing") => dealing(&mut walk),
        Some("cursors") => cursors(&mut walk),
        Some("entries") => entries(&mut walk, count),
        Some("all") => {
            play(&mut walk, count);
            positions(&mut walk, 100 * count);
            refusals(&mut walk, 100 * count);
            bytes(&mut walk, 100 * count);
            limits(&mut walk, 10 * count);
            codes(&mut walk, 1000 * count);
            dealing(&mut walk);
            entries(&mut walk, count / 10);
        }
        _ => {
            eprintln!("compare play|positions|refusals|bytes|limits|codes|dealing|cursors|entries|all [COUNT] [SEED]");
            std::process::exit(2);
        }
    }
    std::process::exit(if walk.tally.report() { 0 } else { 1 });
}
